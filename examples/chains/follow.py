"""Follows eight chains of the divergence comparator through a recording of a million ticks, window by window, by the proved call for
sixteen traces at once: bit k of every number is chain k, and the state that a window leaves is lent to the next one. What is shown is
compared with what the comparator is for, worked out here without a circuit.

    python3 follow.py SHARED-OBJECT SHEETS      # made from libdeltawobble.a, see the script 'run'; the folder of .hex files
"""
import ctypes
import os
import random
import sys
from array import array

MEMORY = 32768  # numbers of working memory that are needed
TICKS = 1_000_000
WINDOW = 65_535  # the most ticks of a call

# the tick at which each chain's two streams differ first: within windows, at their first and last ticks, at the last tick of all, never
FIRST = [3, 65_534, 65_535, 65_536, 131_070, 500_000, 999_999, None]

library = ctypes.CDLL(sys.argv[1])
library.deltawobble_lanes.restype = ctypes.c_uint64
library.deltawobble_lanes.argtypes = [
    ctypes.c_char_p, ctypes.c_size_t,                    # the sheet
    ctypes.POINTER(ctypes.c_uint16), ctypes.c_size_t,    # the input pins' numbers, in pin order, tick after tick
    ctypes.POINTER(ctypes.c_uint16), ctypes.c_size_t,    # the state: a number for each register, by rising terminal
    ctypes.POINTER(ctypes.c_uint16), ctypes.c_size_t,
    ctypes.POINTER(ctypes.c_uint16), ctypes.c_size_t,
    ctypes.c_uint16,
]
work = (ctypes.c_uint16 * MEMORY)()


def lent(numbers):
    """what C takes for an array of numbers: no copy"""
    return (ctypes.c_uint16 * len(numbers)).from_buffer(numbers), len(numbers)


def window(sheet, inputs, state, ticks):
    """the output pins' numbers, in pin order, tick after tick; the state is left for the next window"""
    out = array("H", bytes(2 * 2 * ticks))
    answer = library.deltawobble_lanes(sheet, len(sheet), *lent(inputs), *lent(state), *lent(out), work, MEMORY, ticks)
    if answer >> 32:
        sys.exit("refused %d %d" % (answer >> 32 & 255, answer & 0xFFFFFFFF))
    return out


def recording():
    """a byte a tick for each stream, a bit a chain: from its tick on, a chain's second stream goes its own way"""
    drawn = random.Random(4)
    x, own = drawn.randbytes(TICKS), drawn.randbytes(TICKS)
    y = bytearray(x)
    for chain, first in enumerate(FIRST):
        if first is not None:
            bit = 1 << chain
            for tick in range(first, TICKS):
                y[tick] = y[tick] & ~bit | own[tick] & bit
            y[first] = y[first] & ~bit | ~x[first] & bit
    return x, bytes(y)


def meant(x, y):
    """what the comparator is for: the first tick at which the streams differ decides which is greater, and it stays"""
    greater = diverged = 0
    for a, b in zip(x, y):
        new = (a ^ b) & ~diverged
        greater |= new & a
        diverged |= new
        yield greater
        yield diverged


def followed(sheet, x, y, ticks):
    """the numbers that all windows show, and the state that the last one leaves; both registers start with 0 in each chain"""
    inputs, state, shown, windows = array("H", bytes(4 * TICKS)), array("H", [0, 0]), array("H"), 0
    inputs[0::2], inputs[1::2] = array("H", list(x)), array("H", list(y))
    for begin in range(0, TICKS, ticks):
        end = min(begin + ticks, TICKS)
        shown += window(sheet, inputs[2 * begin:2 * end], state, end - begin)
        windows += 1
    return shown, state, windows


def sheet(name):
    with open(os.path.join(sys.argv[2], name + ".hex")) as file:
        return bytes.fromhex(" ".join(line.split("#")[0] for line in file))


comparator = sheet("comparator-divergence")
x, y = recording()
wanted = array("H", meant(x, y))
for ticks in (WINDOW, 40_000):
    shown, state, windows = followed(comparator, x, y, ticks)
    assert len(shown) == len(wanted)
    print("%d ticks in %d windows: %d numbers, %d not as meant" % (TICKS, windows, len(shown), sum(a != b for a, b in zip(shown, wanted))))
    assert state == wanted[-2:], "the state is what the registers show next, and both registers read what is shown"
diverged = shown[1::2]
for chain, first in enumerate(FIRST):
    bits = [number >> chain & 1 for number in diverged]
    print("chain %d: %s" % (chain, "diverged first at tick %d" % bits.index(1) if 1 in bits else "never diverged"))
