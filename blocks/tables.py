"""The tables of blocks/README.md, made from a run of blocks/test: nothing stands in them that the run did not prove or try."""
from __future__ import annotations

from itertools import product

from catalogue import ALL, Block, braces
from judge import Judged
from library import BLOCKS

README = BLOCKS / "README.md"
BEGIN, END = "<!-- from here on made by blocks/test --write -->", "<!-- up to here -->"
FAMILIES = {"bits": "bits.dw: bits in a row", "serial": "serial.dw: streams of bits, lowest first", "decisions": "decisions.dw: decisions",
            "functions": "functions.dw: circuits that take circuits"}


def stretch(numbers: list[int]) -> str:
    """1 to 5, or 2, 4, 6."""
    if len(numbers) > 2 and numbers == list(range(numbers[0], numbers[-1] + 1)):
        return "%d to %d" % (numbers[0], numbers[-1])
    return ", ".join(map(str, numbers))


def letter(block: Block) -> str:
    return block.label or ("k" if "2^k" in block.says else "n")


def sizes_in_words(block: Block, sizes: list[tuple[int, ...]]) -> str:
    """What was asked for, as numbers with their labels."""
    if sizes == [()]:
        blocks = block.proved_blocks(())
        return "all of it" if blocks == [()] else " ".join(braces(size) for size in blocks)
    columns = [sorted(set(column)) for column in zip(*sizes)]
    labels = letter(block).split(", ")
    if len(labels) == len(columns) and set(sizes) == set(product(*columns)):
        return "; ".join("%s = %s" % (label, stretch(column)) for label, column in zip(labels, columns))
    return letter(block) + ": " + " ".join(braces(size) for size in sizes)


def tried_in_words(sizes: list[tuple[int, ...]]) -> str:
    return " ".join(braces(size) for size in sizes) if sizes != [()] else "as it is"


def contract_row(block: Block, judged: Judged) -> str:
    if len(judged.proved) != len(block.proved) * (2 if block.round else 1):
        raise AssertionError("%s: the run proved other sizes" % block.name)
    again = "; from one start it goes through all 2^n - 1" if block.round else ""
    proved = block.words or sizes_in_words(block, list(block.proved))
    proved += again + ("; then %d" % judged.stopped if judged.stopped else "")
    tried = "%s (%s ticks)" % (tried_in_words(list(block.tried)), format(sum(judged.agreed[size] for size in block.tried), ","))
    return "| `%s` | %s | `%s` | %s | %s |" % (block.name, block.says, block.property, proved, tried)


def cost_row(block: Block, judged: Judged) -> str:
    """The smallest size, and those that are tried."""
    shown = [judged.costs[0]] + [cost for cost in judged.costs[1:] if cost.size in block.tried]
    cells = ["%s: %d / %d / %s / %d" % (braces(cost.size) or "as it is", cost.parts, cost.registers, format(cost.terminals, ","), cost.depth) for cost in shown]
    card = "held" if all(cost.card for cost in judged.costs) else "not held: " + " ".join(braces(cost.size) for cost in judged.costs if not cost.card)
    return "| `%s` | %s | %s |" % (block.name, "; ".join(cells), card)


def made(judged: list[Judged]) -> str:
    by_name = {one.name: one for one in judged}
    lines = []
    for family, title in FAMILIES.items():
        blocks = [block for block in ALL if block.family == family]
        lines += ["", "### %s" % title, "", "| block | computes | never 1 | proved for all inputs and starts at | tried against the model at |", "|---|---|---|---|---|"]
        lines += [contract_row(block, by_name[block.name]) for block in blocks]
        lines += ["", "| block | size: parts / registers / terminals / depth | card's profile |", "|---|---|---|"]
        lines += [cost_row(block, by_name[block.name]) for block in blocks]
    return "\n".join(lines) + "\n\n"


def update(judged: list[Judged], write: bool) -> list[str]:
    """A fault where README has other tables; with `write` these are put there."""
    text = README.read_text()
    head, rest = text.split(BEGIN)
    _, tail = rest.split(END)
    wanted = head + BEGIN + "\n" + made(judged) + END + tail
    if write:
        README.write_text(wanted)
    elif wanted != text:
        print("WRONG blocks/README.md has other tables than this run makes (blocks/test --write writes them)")
        return ["README.md"]
    return []
