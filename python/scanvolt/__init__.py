"""A simulated scanning voltmeter, for those who write drivers.

`scanvolt.vxi11` speaks VXI-11, `scanvolt.virtual` is an instrument in virtual time. `python3 -m scanvolt` prints the
versions of this package and of the program that it runs.
"""

__version__ = "2.0.0"
