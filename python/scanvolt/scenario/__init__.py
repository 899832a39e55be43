"""Scenarios for `scanvolt serve`: written, drawn and checked by `scanvolt-scenario`.

shapes: how the voltage of a channel goes. table: voltages from a CSV file. picture: draws a scenario.
command: the command line. `scanvolt.stimulus` reads and writes the lines.
"""
