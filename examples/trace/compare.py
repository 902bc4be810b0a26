"""Runs recorded traces through the divergence comparator, by the proved call: one on which both streams agree for 64 ticks, and one
on which they diverge at tick 40; then two runs that are refused.

    python3 compare.py SHARED-OBJECT SHEETS      # made from libdeltawobble.a, see the script 'run'; the folder of .hex files
"""
import ctypes
import os
import sys

MEMORY = 32768  # numbers of working memory that are needed
TICKS = 64

library = ctypes.CDLL(sys.argv[1])
library.deltawobble_run.restype = ctypes.c_uint64
library.deltawobble_run.argtypes = [
    ctypes.c_char_p, ctypes.c_size_t,               # the sheet
    ctypes.c_char_p, ctypes.c_size_t,               # the input pins' bits, in pin order, tick after tick
    ctypes.c_char_p, ctypes.c_size_t,               # a start bit for each register, by rising terminal
    ctypes.POINTER(ctypes.c_uint8), ctypes.c_size_t,
    ctypes.POINTER(ctypes.c_uint16), ctypes.c_size_t,
    ctypes.c_uint16,
]


def sheet(name):
    with open(os.path.join(sys.argv[2], name + ".hex")) as file:
        return bytes.fromhex(" ".join(line.split("#")[0] for line in file))


def run(sheet, inputs, starts, room, ticks):
    """(0, the output pins' bits in pin order, tick after tick), or (the refusal's number, its place)"""
    out = (ctypes.c_uint8 * room)()
    work = (ctypes.c_uint16 * MEMORY)()
    answer = library.deltawobble_run(sheet, len(sheet), inputs, len(inputs), starts, len(starts), out, room, work, MEMORY, ticks)
    number, value = answer >> 32 & 255, answer & 0xFFFFFFFF
    return (number, value) if number else (0, bytes(out[:value]))


def recorded():
    """64 bits as the card's own shift register gives them: taps at 8, 6, 5, 4, started with a 1"""
    state, bits = [1, 0, 0, 0, 0, 0, 0, 0], []
    for _ in range(TICKS):
        bits.append(state[7])
        state = [state[7] ^ state[5] ^ state[4] ^ state[3]] + state[:7]
    return bits


def show(name, bits):
    print("%-10s%s" % (name, "".join(map(str, bits))))


comparator = sheet("comparator-divergence")
STARTS = bytes([0, 0])  # what greater's register and diverged's hold at tick 0
x = recorded()
flipped = x[:40] + [1 - x[40]] + x[41:]
for name, y in (("agrees", x), ("diverges at tick 40", flipped)):
    both = bytes(bit for pair in zip(x, y) for bit in pair)
    number, bits = run(comparator, both, STARTS, 2 * TICKS, TICKS)
    assert number == 0
    greater, diverged = list(bits[0::2]), list(bits[1::2])
    print(name)
    for row, stream in (("x", x), ("y", y), ("greater", greater), ("diverged", diverged)):
        show(row, stream)
    print("diverged", "first at tick %d" % diverged.index(1) if 1 in diverged else "never")
print("without start bits: refused %d %d" % run(comparator, bytes(2 * TICKS), b"", 2 * TICKS, TICKS))
print("a ring of one point (P4): refused %d %d" % run(sheet("P4"), b"", b"", 1, 1))
