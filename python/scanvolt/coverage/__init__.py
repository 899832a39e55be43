"""Which of the instrument's commands, errors, status bits, calls and situations the tests of a driver have met.

`pytest --scanvolt-coverage` counts the sessions of all tests in virtual time, and `scanvolt-coverage` those of scripts. The
lists are those of the instrument's documents (tables.py). What is counted is what `scanvolt explain` says that the instrument
did, and not what a client sent.
"""
