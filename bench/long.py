"""Makes long traces, runs them by the desk's command, and says how fast that was and what memory it took: bench/long runs it."""
from __future__ import annotations

import os
import random
import subprocess
import sys
import time
from array import array
from pathlib import Path
from typing import IO, Iterator

from deltawobble.files import read
from deltawobble.lanes import Traces

SHEET = "examples/comparator-divergence.dw"
#: ticks that are made at once
PIECE = 100000
MOST_MEMORY = 100
BIT = bytes(i & 1 for i in range(256))


def pieces(ticks: int, differs: int) -> Iterator[tuple[bytes, bytes, bytes, bytes]]:
    """x, y, greater and diverged: y is x but at one tick, from which on diverged is 1, and greater is the x of that tick."""
    rng, greater, diverged, at = random.Random(1), 0, 0, 0
    while at < ticks:
        some = min(PIECE, ticks - at)
        x = rng.getrandbits(8 * some).to_bytes(some, "little").translate(BIT)
        y = bytearray(x)
        outs = bytes([greater]) * some, bytes([diverged]) * some
        if at <= differs < at + some:
            k = differs - at
            y[k] ^= 1
            greater, diverged = x[k], 1
            outs = bytes(k) + bytes([greater]) * (some - k), bytes(k) + bytes([1]) * (some - k)
        yield x, bytes(y), *outs
        at += some


def write_csv(file: IO[bytes], ticks: int, differs: int) -> None:
    file.write(b"x,y,out.0,out.1\n")
    for columns in pieces(ticks, differs):
        rows = bytearray(b"0,0,0,0\n" * len(columns[0]))
        for i, column in enumerate(columns):
            rows[2 * i::8] = column.translate(b"01" + bytes(254))
        file.write(rows)


def write_vcd(file: IO[bytes], ticks: int, differs: int) -> None:
    """As a simulator writes it: a clock that rises at 5, 15 and so on, and pins that change where it falls."""
    file.write(b"$timescale 1 ns $end\n$scope module bench $end\n$var wire 1 ! clk $end\n$var wire 1 \" x $end\n$var wire 1 # y $end\n"
               b"$var wire 2 $ out [1:0] $end\n$upscope $end\n$enddefinitions $end\n")
    tick, before = 0, (-1, -1, -1)
    for x, y, greater, diverged in pieces(ticks, differs):
        lines = []
        for a, b, g, d in zip(x, y, greater, diverged):
            lines.append("#%d\n0!\n" % (10 * tick))
            lines += ["%d\"\n" % a] if a != before[0] else []
            lines += ["%d#\n" % b] if b != before[1] else []
            lines += ["b%d%d $\n" % (d, g)] if 2 * d + g != before[2] else []
            lines.append("#%d\n1!\n" % (10 * tick + 5))
            before, tick = (a, b, 2 * d + g), tick + 1
        file.write("".join(lines).encode())


def measured(words: list[str]) -> tuple[int, str, float, float]:
    """A command's status, what it printed, the seconds of the processor, and its most memory in MB."""
    with subprocess.Popen(words, stdout=subprocess.PIPE, stderr=subprocess.DEVNULL, text=True) as process:
        said = process.stdout.read()
        _, status, used = os.wait4(process.pid, 0)
        process.returncode = os.waitstatus_to_exitcode(status)
    return process.returncode, said, used.ru_utime + used.ru_stime, used.ru_maxrss / 1024


def call_alone(ticks: int) -> float:
    """The seconds of the processor that the proved call takes for so many ticks, window by window."""
    traces = Traces(read(SHEET).bytes)
    spent = 0.0
    while traces.tick < ticks:
        some = min(traces.most, ticks - traces.tick)
        inputs = array("H", bytes(4 * some))
        before = time.process_time()
        traces.step(inputs, some)
        spent += time.process_time() - before
    return spent


def main() -> None:
    room, numbers = Path(sys.argv[1]), [int(word) for words in sys.argv[2:] for word in words.split()]
    print("%-24s%12s%10s%14s%14s%12s" % ("trace", "ticks", "seconds", "ticks/s", "call alone/s", "memory MB"))
    wrong = False
    for ticks in numbers:
        for kind, write in (("csv", write_csv), ("vcd", write_vcd)):
            if kind == "vcd" and ticks > 1000000:
                continue
            wrong |= one(room, ticks, kind, write)
    sys.exit(int(wrong))


def one(room: Path, ticks: int, kind: str, write) -> bool:
    """One trace: alike as it was recorded; and, of a sheet whose registers start otherwise, different from tick 0 on."""
    path, differs = room / ("trace." + kind), ticks - ticks // 3
    with path.open("wb") as file:
        write(file, ticks, differs)
    words = ["desk/deltawobble", "run", SHEET, str(path)] + (["--clock", "clk"] if kind == "vcd" else [])
    status, said, seconds, memory = measured(words + ["--starts", "all=0"])
    alike = status == 0 and said == "alike: 2 output pins at %d ticks, %d recorded bits, no difference\n" % (ticks, 2 * ticks)
    print("%-24s%12d%10.1f%14.0f%14.0f%12.1f" % ("comparator, " + kind, ticks, seconds, ticks / seconds, ticks / call_alone(ticks), memory), flush=True)
    status, said, _, more = measured(words + ["--starts", "old=1"])
    early = status == 1 and said.startswith("different: out.1 at tick 0 is the first; %d differ" % (differs + (differs_greater(room, ticks, differs))))
    path.unlink()
    if not alike or not early or max(memory, more) > MOST_MEMORY:
        print("wrong: alike %s, early %s, %.1f MB\n%s" % (alike, early, max(memory, more), said), file=sys.stderr)
        return True
    return False


def differs_greater(room: Path, ticks: int, differs: int) -> int:
    """With diverged set from the start greater never rises: it differs from the record where that is 1."""
    return sum(piece[2].count(1) for piece in pieces(ticks, differs))


if __name__ == "__main__":
    main()
