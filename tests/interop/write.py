#!/usr/bin/env python3
"""Writes and reads messages by python3-msgpack: `write.py` prints rows, and `write.py read` prints what it reads in rows of what this library wrote.

A row is a kind, the message in hex, and what it is: of a `float` the bits of the double, of a `time` its seconds and nanoseconds, of a `record`
those of its three fields. What `make.sh` beside this printed of both is stored in messages.txt and read.txt.
"""
import struct
import sys

import msgpack

FLOATS = [0.0, -0.0, 1.0, -1.0, 0.5, 0.1, -2.5, 1e300, 5e-324, float("inf"), float("-inf")]
WHOLE = [0, 1, -1, 127, 128, 255, 256, -32, -33, 65536, -(2**31), 2**32, 2**53, 2**53 + 2, -(2**53), 2**63, -(2**63), 2**64 - 2048]
NOT_HELD = [2**53 + 1, -(2**53) - 1, 2**63 - 1, 2**64 - 1]
TIMES = [
    *[(0, 0), (1, 0), (1514862245, 0), (1514862245, 678901234), (2147483647, 999999999), (2147483648, 0), (2147483648, 1), (4294967295, 0)],
    *[(4294967295, 999999999), (4294967296, 0), (17179869183, 999999999), (17179869184, 0), (17179869184, 1), (-1, 0), (-1, 999999999)],
    *[(-208988640, 0), (2**63 - 1, 0), (-(2**63), 999999999)],
]
# A record's fields in several orders, with one that it doesn't have.
ORDERS = ["name load at", "at load name", "load name at", "load more at name"]


def bits(value):
    return struct.pack(">d", value).hex()


def row(*words):
    print(*words)


def write():
    for value in FLOATS:
        row("float", msgpack.packb(value).hex(), bits(value))
    for value in FLOATS[:5] + FLOATS[6:7] + FLOATS[9:]:
        row("float", msgpack.packb(value, use_single_float=True).hex(), bits(value))
    for number in WHOLE:
        row("float", msgpack.packb(number).hex(), bits(float(number)))
    for number in NOT_HELD:
        row("float", msgpack.packb(number).hex(), "refused")
    for seconds, nanoseconds in TIMES:
        row("time", msgpack.packb(msgpack.Timestamp(seconds, nanoseconds)).hex(), seconds, nanoseconds)
    for load in (3, 0.25):
        for order in ORDERS:
            fields = {"name": "weir", "load": load, "at": msgpack.Timestamp(1514862245, 5), "more": [1, {"a": None}]}
            message = msgpack.packb({key: fields[key] for key in order.split()})
            row("record", message.hex(), "weir", bits(float(load)), 1514862245, 5)


def read():
    """Prints what each message of this library is read as."""
    for line in sys.stdin:
        kind, digits = line.split()
        value = msgpack.unpackb(bytes.fromhex(digits))
        if kind == "float":
            found = [bits(value)]
        elif kind == "time":
            found = [value.seconds, value.nanoseconds]
        else:
            found = [value["name"], bits(value["load"]), value["at"].seconds, value["at"].nanoseconds]
        row(kind, digits, *found)


if __name__ == "__main__":
    read() if sys.argv[1:] == ["read"] else write()
