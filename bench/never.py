"""Circuits with a question each: is the output pin ever 1? The proved call and Yosys answer, side by side.

Called by bench/never: python3 bench/never.py ROOM, where ROOM/never is bench/never_once.c, compiled and linked.
"""
import os
import resource
import subprocess
import sys

from deltawobble.notation import make

LIMIT = 60


def example(name):
    with open(os.path.join("examples", "never", name + ".dw"), encoding="utf-8") as file:
        return file.read()


def row(names):
    return "(" + ", ".join(names) + ")"


def counter(bits):
    """A counter that goes on where `go` is 1, asked if it wraps: after 2^bits - 1 ticks, and one more."""
    olds = [f"q{k}" for k in range(bits)] + ["wraps"]
    following = [f"reg (xor (q{k}, c{k}))" for k in range(bits)] + [f"c{bits}"]
    carries = "let c0 = go in " + "".join(f"let c{k + 1} = and (q{k}, c{k}) in " for k in range(bits))
    return machine(["go"], olds, carries + row(following))


def mixer(bits, inputs):
    """A shift register with feedback into which inputs are mixed, so that every state can be met. Asked if a bit and its inverse are both 1."""
    following = [f"reg (xor (q{bits - 1}, xor (q{bits - 4}, x0)))"]
    for k in range(1, bits):
        mixed = f"q{k - 1}"
        if k % 5 == 0 and k // 5 < inputs:
            mixed = f"xor ({mixed}, x{k // 5})"
        elif k % 2 or k in (2, 4, 6, 8):
            mixed = f"xor ({mixed}, and (q{(k + 7) % bits}, q{(k + 12) % bits}))"
        following.append(f"reg ({mixed})")
    both = "and (and (q0, and (q9, or (q5, q6))), and (inv q0, or (or (q7, q8), or (q3, or (q11, xor (q16, q17))))))"
    return machine([f"x{k}" for k in range(inputs)], [f"q{k}" for k in range(bits)] + ["both"], row(following + [both]))


def machine(inputs, names, following):
    """The last of some bits that follow from inputs and from themselves."""
    state = " * ".join(["1"] * len(names))
    return f"edition 2\nmain = fun {' '.join(inputs)} : 1. let {row(names)} = (fix s : {state}. let {row(names)} = s in {following}) in {names[-1]}\n"


# name, text, start bytes by rising terminal
CIRCUITS = [
    ("comparator, the bit falls", example("comparator-bit-falls"), "2" * 2),
    ("two full adders differ", example("adders-differ"), ""),
    ("lfsr of 16 bits shows 0", example("lfsr-16-zero"), "1" + "0" * 15),
    ("counter of 12 bits wraps", counter(12), "0" * 12),
    ("counter of 16 bits wraps", counter(16), "0" * 16),
    ("20 registers, 4 inputs", mixer(20, 4), "0" * 20),
]


def written(path, data):
    with open(path, "wb") as file:
        file.write(data)
    return path


def asked(room, sheet, starts):
    """What the proved call answers: number, value, parts, registers, input pins, seconds."""
    said = subprocess.run([os.path.join(room, "never"), sheet, starts, "0"], capture_output=True, text=True, check=True).stdout.split()
    return [int(word) for word in said[:-1]] + [float(said[-1])]


def by_yosys(room, sheet, starts, steps):
    """Yosys' sat with temporal induction, at most LIMIT seconds: its word, and the seconds."""
    module = subprocess.run([os.path.join(room, "never"), sheet, "verilog"], capture_output=True, text=True, check=True).stdout
    path = written(os.path.join(room, "circuit.v"), module.encode())
    last = [line for line in module.split("\n") if "output p" in line][-1].split()[-1].strip(",);")
    registers = [line.split()[1].strip(";") for line in module.split("\n") if line.strip().startswith("reg ")]
    inits = " ".join(f"-set-init {name} {bit}" for name, bit in zip(registers, starts) if bit != "2")
    script = f"read_verilog {path}; prep -flatten -top circuit; sat -tempinduct -maxsteps {steps} -prove {last} 0 {inits} circuit"
    start = used()
    try:
        run = subprocess.run(["yosys", "-p", script], capture_output=True, text=True, timeout=LIMIT)
    except subprocess.TimeoutExpired:
        return "no answer", LIMIT
    said = run.stdout
    word = "holds" if "induction proof successful" in said.lower() or "SUCCESS!" in said else "shown" if "FAIL!" in said else "no answer"
    return word, used() - start


def used():
    """The processor's own time of the programs called so far."""
    return resource.getrusage(resource.RUSAGE_CHILDREN).ru_utime


def main():
    room = sys.argv[1]
    print(f"{'question':<28}{'parts':>6}{'regs':>5}{'ins':>4}  {'proved':<16}{'s':>8}{'tries a s':>12}  {'Yosys':<10}{'s':>7}")
    for name, text, starts in CIRCUITS:
        sheet = written(os.path.join(room, "sheet"), bytes(make(text).sheet))
        number, value, parts, registers, inputs, seconds = asked(room, sheet, starts)
        tries = (value if number == 0 else min(value + 1, 1 << registers)) << inputs
        answer = f"holds: {value:,}" if number == 0 else f"tick {value:,}" if number == 40 else f"refused {number}"
        word, took = by_yosys(room, sheet, starts, 40)
        print(f"{name:<28}{parts:>6}{registers:>5}{inputs:>4}  {answer:<16}{seconds:>8.3f}{tries / max(seconds, 1e-6):>12,.0f}  {word:<10}{took:>7.1f}", flush=True)
        if number not in (0, 40):
            sys.exit(f"{name}: refused {number} {value}")


if __name__ == "__main__":
    main()
