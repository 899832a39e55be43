"""Tables of the documents: bits, sums of bits, errors, and why an event is refused. `tools/explaining` writes this file."""
from typing import Dict, Tuple

BITS: Dict[str, Dict[int, Tuple[str, str]]] = {
    'poll': {
        2: ('EAV', 'an error is queued'),
        3: ('QUES', 'an enabled questionable event'),
        4: ('MAV', 'a response can be read'),
        5: ('ESB', 'an enabled standard event'),
        6: ('RQS', 'RQS in a poll, MSS in *STB?'),
        7: ('OPER', 'an enabled operation event'),
    },
    'esr': {
        0: ('OPC', '*OPC: operation complete'),
        2: ('QYE', 'query error, -4xx'),
        3: ('DDE', 'device-specific error, -3xx; overflow'),
        4: ('EXE', 'execution error, -2xx'),
        5: ('CME', 'command error, -1xx'),
        7: ('PON', 'power on'),
    },
    'oper': {
        4: ('MEAS', 'channels are being read'),
        5: ('WTRIG', 'the scan waits for a trigger'),
        8: ('BUSY', 'a measurement is under way'),
    },
    'ques': {
        0: ('VOLT', 'the last reading is an overload'),
        9: ('LIM', 'an enabled event of the limits'),
    },
    'lim': {
        0: ('BELOW', 'the last reading is below the lower limit'),
        1: ('ABOVE', 'the last reading is above the upper limit'),
        2: ('MONITORED', 'the monitored input is outside the limits'),
    },
}
SUMS: Dict[Tuple[str, int], Tuple[str, str]] = {
    ('poll', 7): ('oper.event', 'oper.enable'),
    ('poll', 5): ('esr', 'ese'),
    ('poll', 3): ('ques.event', 'ques.enable'),
    ('ques.cond', 9): ('lim.event', 'lim.enable'),
}
CLASSES: Dict[int, int] = {
    2: 4,
    3: 3,
    4: 2,
    5: 1,
}
ERRORS: Dict[int, str] = {
    -101: "Invalid character",
    -102: "Syntax error",
    -104: "Data type error",
    -108: "Parameter not allowed",
    -109: "Missing parameter",
    -112: "Program mnemonic too long",
    -113: "Undefined header",
    -121: "Invalid character in number",
    -123: "Exponent too large",
    -124: "Too many digits",
    -131: "Invalid suffix",
    -138: "Suffix not allowed",
    -141: "Invalid character data",
    -171: "Invalid expression",
    -211: "Trigger ignored",
    -213: "Init ignored",
    -214: "Trigger deadlock",
    -221: "Settings conflict",
    -222: "Data out of range",
    -223: "Too much data",
    -224: "Illegal parameter value",
    -230: "Data corrupt or stale",
    -350: "Queue overflow",
    -363: "Input buffer overrun",
    -410: "Query INTERRUPTED",
    -420: "Query UNTERMINATED",
    -430: "Query DEADLOCKED",
}
REFUSED: Dict[int, str] = {
    1: "memory was refused",
    2: "the connection is open already",
    3: "the connection or interrupt channel doesn't exist or isn't open",
    4: "the connection has no room for the bytes (bytes), or for a reply (turn, refuse)",
    6: "no create_intr_chan of this connection waits to be connected",
    7: "there is no next call, or the next call isn't a valid create_link or create_intr_chan",
    8: "there is no such input channel",
    9: "the voltage is beyond plus or minus 1,000,000,000 microvolts",
    10: "the clock has its last value",
}
START: Dict[str, object] = {
    'esr': 128,
    'count': 1,
    'source': "imm",
    'range': 10000000,
    'list': 1,
    'monitor': 1,
    'upper': 1000000000,
    'lower': -1000000000,
    'oper.ptr': 32767,
    'ques.ptr': 32767,
    'lim.ptr': 32767,
    'lim.enable': 32767,
}
