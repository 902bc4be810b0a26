"""Calls the proved translator from Python: prints P3's full and lean netlist, in plain kinds, in hex, or the refusal; then two windows of
sixteen traces through a register, with the state that each leaves.

    python3 caller.py SHARED-OBJECT      # made from libdeltawobble.a, see the script 'run'
"""
import ctypes
import sys

SHEET = bytes.fromhex("01 03 00 00 04 01 00 16 15 02 14 12 00 1A 00 00 1A 01 01")
REGISTER = bytes.fromhex("01 03 00 00 1A 01 01")
ROOM = 41344    # output bytes that always do in plain kinds
MEMORY = 32768  # numbers of working memory that are needed

library = ctypes.CDLL(sys.argv[1])
library.deltawobble_translate.restype = ctypes.c_uint64
library.deltawobble_translate.argtypes = [
    ctypes.c_char_p, ctypes.c_size_t,
    ctypes.POINTER(ctypes.c_uint8), ctypes.c_size_t,
    ctypes.POINTER(ctypes.c_uint16), ctypes.c_size_t,
    ctypes.c_bool, ctypes.c_bool, ctypes.c_bool,
]
library.deltawobble_lanes.restype = ctypes.c_uint64
library.deltawobble_lanes.argtypes = [ctypes.c_char_p, ctypes.c_size_t] + 4 * [ctypes.POINTER(ctypes.c_uint16), ctypes.c_size_t] + [ctypes.c_uint16]


def translate(sheet, lean):
    """(0, the netlist's bytes), or (the refusal's number, its place)"""
    out = (ctypes.c_uint8 * ROOM)()
    work = (ctypes.c_uint16 * MEMORY)()
    answer = library.deltawobble_translate(sheet, len(sheet), out, ROOM, work, MEMORY, lean, True, False)
    number, value = answer >> 32 & 255, answer & 0xFFFFFFFF
    return (number, value) if number else (0, bytes(out[:value]))


def lanes(sheet, inputs, state):
    """(0, a number a tick), or (the refusal's number, its place), of a circuit with one input pin and one output pin; the state is lent, and
    left for the next window"""
    ticks = len(inputs)
    given, out, work = (ctypes.c_uint16 * ticks)(*inputs), (ctypes.c_uint16 * ticks)(), (ctypes.c_uint16 * MEMORY)()
    answer = library.deltawobble_lanes(sheet, len(sheet), given, ticks, state, len(state), out, ticks, work, MEMORY, ticks)
    number, value = answer >> 32 & 255, answer & 0xFFFFFFFF
    return (number, value) if number else (0, list(out[:value]))


for name, lean in (("full", False), ("lean", True)):
    number, result = translate(SHEET, lean)
    print(name, "refused %d %d" % (number, result) if number else result.hex(" "))

state = (ctypes.c_uint16 * 1)(0x00FF)
for inputs in ([0xAAAA, 0x5555], [0x1234]):
    number, result = lanes(REGISTER, inputs, state)
    print("lanes", "refused %d %d" % (number, result) if number else " ".join("%04x" % shown for shown in result) + " state %04x" % state[0])
