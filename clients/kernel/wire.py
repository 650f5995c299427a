# SPDX-License-Identifier: Apache-2.0 OR MIT
"""Commands and returns as bytes, by the names of the header (docs/FORMATS.md)."""
import struct
from collections import namedtuple

RECORD = struct.Struct("<QQIIiIQQQQ")
Record = namedtuple("Record", "target cookie code flags pid euid data_size offsets_size buffer offsets")
FLAT = struct.Struct("<IIQQ")
ONE_WAY = 1

BINDER, WEAK_BINDER, HANDLE, WEAK_HANDLE = 0x73622a85, 0x77622a85, 0x73682a85, 0x77682a85
OTHER_OBJECTS = (0x66642a85, 0x66646185, 0x70742a85)

# a command's or a return's code, and the layout of what follows it
COMMANDS = {
    "BC_TRANSACTION": (0x40406300, RECORD), "BC_REPLY": (0x40406301, RECORD), "BC_FREE_BUFFER": (0x40086303, struct.Struct("<Q")),
    "BC_INCREFS": (0x40046304, struct.Struct("<I")), "BC_ACQUIRE": (0x40046305, struct.Struct("<I")),
    "BC_RELEASE": (0x40046306, struct.Struct("<I")), "BC_DECREFS": (0x40046307, struct.Struct("<I")),
    "BC_INCREFS_DONE": (0x40106308, struct.Struct("<QQ")), "BC_ACQUIRE_DONE": (0x40106309, struct.Struct("<QQ")),
    "BC_ENTER_LOOPER": (0x630c, struct.Struct("")), "BC_EXIT_LOOPER": (0x630d, struct.Struct("")),
    "BC_REQUEST_DEATH_NOTIFICATION": (0x400c630e, struct.Struct("<IQ")),
    "BC_CLEAR_DEATH_NOTIFICATION": (0x400c630f, struct.Struct("<IQ")), "BC_DEAD_BINDER_DONE": (0x40086310, struct.Struct("<Q")),
}
# those that the rules refuse by name; the driver refuses the first two as well
REFUSED = {"BC_ATTEMPT_ACQUIRE": 0x4008630a, "BC_ACQUIRE_RESULT": 0x40046302, "BC_REGISTER_LOOPER": 0x630b,
           "BC_TRANSACTION_SG": 0x40486311, "BC_REPLY_SG": 0x40486312}
RETURNS = {
    "BR_TRANSACTION": (0x80407202, RECORD), "BR_REPLY": (0x80407203, RECORD), "BR_DEAD_REPLY": (0x7205, struct.Struct("")),
    "BR_TRANSACTION_COMPLETE": (0x7206, struct.Struct("")), "BR_INCREFS": (0x80107207, struct.Struct("<QQ")),
    "BR_ACQUIRE": (0x80107208, struct.Struct("<QQ")), "BR_RELEASE": (0x80107209, struct.Struct("<QQ")),
    "BR_DECREFS": (0x8010720a, struct.Struct("<QQ")), "BR_NOOP": (0x720c, struct.Struct("")),
    "BR_DEAD_BINDER": (0x8008720f, struct.Struct("<Q")), "BR_CLEAR_DEATH_NOTIFICATION_DONE": (0x80087210, struct.Struct("<Q")),
    "BR_FAILED_REPLY": (0x7211, struct.Struct("")), "BR_ONEWAY_SPAM_SUSPECT": (0x7213, struct.Struct("")),
}
COMMAND_OF = {code: name for name, (code, _) in COMMANDS.items()}
RETURN_OF = {code: name for name, (code, _) in RETURNS.items()}


class Unreadable(Exception):
    """What stands next in a stream is no command: F1, F2 or F3."""


def spelled(table, name, *fields):
    code, layout = table[name]
    return struct.pack("<I", code) + layout.pack(*fields)


def command(name, *fields):
    return spelled(COMMANDS, name, *fields)


def returned(name, *fields):
    return spelled(RETURNS, name, *fields)


def read_command(stream):
    """The first command of a stream: its name, its fields, how many bytes it has."""
    if len(stream) < 4:
        raise Unreadable("F1")
    code = struct.unpack_from("<I", stream)[0]
    if code in REFUSED.values():
        raise Unreadable("F3")
    if code not in COMMAND_OF:
        raise Unreadable("F2")
    name = COMMAND_OF[code]
    layout = COMMANDS[name][1]
    if len(stream) < 4 + layout.size:
        raise Unreadable("F1")
    fields = layout.unpack_from(stream, 4)
    return name, (Record(*fields),) if layout is RECORD else fields, 4 + layout.size


def read_returns(stream):
    """All returns of a stream, by names and fields."""
    found, at = [], 0
    while at < len(stream):
        name = RETURN_OF[struct.unpack_from("<I", stream, at)[0]]
        layout = RETURNS[name][1]
        found.append((name, layout.unpack_from(stream, at + 4)))
        at += 4 + layout.size
    return found


def padded(size):
    """A size as a multiple of 8."""
    return -(-size // 8) * 8
