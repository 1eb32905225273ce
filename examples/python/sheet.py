#!/usr/bin/env python3
"""Runs a session and prints its sheet, over ctypes: a line for each record, its kind, then its fields.

    cc -shared -o liblegging.so -Wl,--whole-archive liblegging.a -Wl,--no-whole-archive
    sheet.py ./liblegging.so session.bin

The exit status is 0 when the whole list was done, 1 when a torn message ended it, 2 for a wrong command line.
"""
import ctypes
import struct
import sys

NO_ROOM = 10
FIELDS = {64: "<IBHB", 65: "<BBIIII", 66: "<IiI", 67: "<IBBIII", 68: "<IBBB", 70: "<IIiI", 71: "<II", 72: "<B"}

if len(sys.argv) != 3:
    print(__doc__.strip(), file=sys.stdout if "--help" in sys.argv else sys.stderr)
    sys.exit(0 if "--help" in sys.argv else 2)
run = ctypes.CDLL(sys.argv[1]).legging_run
run.argtypes = [ctypes.c_char_p, ctypes.c_size_t, ctypes.c_char_p, ctypes.c_size_t]
run.restype = ctypes.c_uint8
with open(sys.argv[2], "rb") as file:
    messages = file.read()
number, room = NO_ROOM, 32768
while number == NO_ROOM:  # a run starts from a fresh venue, so it is made again with more memory
    room *= 2
    report = ctypes.create_string_buffer(room)
    number = run(messages, len(messages), report, room)
at = 0
while at + 4 <= room and (head := struct.unpack_from("<HH", report, at))[0] > 0:
    print(head[1], *struct.unpack_from(FIELDS[head[1]], report, at + 4))
    at += head[0]
sys.exit(number)
