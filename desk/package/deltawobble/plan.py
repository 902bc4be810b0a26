"""The plan of a campaign, a TOML file: sheets, traces, and what is expected. A fault is said with its line and its key.

    sheets = ["sheets", "more/*.dw", "one.hex"]            # files, folders, patterns; from the plan's own folder on

    [traces]
    files = ["recorded/*.csv"]                             # recorded traces
    random = { seeds = [1, 1000], ticks = 1000 }           # a trace for each seed, the first and the last one named
    clock = "clk"                                          # dumps (.vcd): sampled where it rises; or every = "10ns"; scope = "top.dut"
    starts = [0, 3]                                        # each of them from each start: bit i is what register i shows at tick 0

    [expect]
    columns = true                                         # a recorded column that is named as an output pin
    zero = ["diverged"]                                    # these pins stay 0
    same = "reference.dw"                                  # the outputs are those of this sheet
"""
from __future__ import annotations

import glob
import os
import re
import tomllib
from dataclasses import dataclass, field
from pathlib import Path
from typing import Any, NoReturn, Optional

from .dump import seconds
from .files import WrongUse, need_text, raw
from .recordings import Sampled

#: files that are taken from a folder
SHEETS, TRACES = (".sheet", ".hex", ".dw"), (".csv", ".trace", ".txt", ".vcd")
#: ticks of a random trace
MOST_TICKS = 10_000_000
#: what may stand in a plan, by table
KEYS: dict[tuple[str, ...], tuple[str, ...]] = {
    (): ("name", "sheets", "traces", "expect"), ("traces",): ("files", "random", "starts", "clock", "every", "scope"), ("traces", "random"): ("seeds", "ticks"),
    ("expect",): ("columns", "zero", "same")}


@dataclass
class Plan:
    """What is asked for, its files found and counted; a file that is named and missing is one of them. Names are seen from `folder`."""

    name: str
    folder: str = "."
    sheets: list[str] = field(default_factory=list)
    files: list[str] = field(default_factory=list)
    seeds: range = range(0)
    ticks: int = 0
    starts: range = range(0, 1)
    sampled: Sampled = Sampled()
    columns: bool = False
    zero: list[str] = field(default_factory=list)
    same: Optional[str] = None

    def path(self, name: str) -> str:
        """Where a file of the plan is."""
        return os.path.join(self.folder, name)

    @property
    def traces(self) -> int:
        return (len(self.files) + len(self.seeds)) * len(self.starts)


class Reader:
    """One plan being read: its text is kept, to say where a key stands."""

    def __init__(self, name: str, text: str):
        self.name, self.text, self.folder = name, text, Path(name).parent

    def fault(self, key: tuple[str, ...], what: str) -> NoReturn:
        raise WrongUse("%s:%d: %s: %s" % (self.name, line_of(self.text, key), ".".join(key) or "the plan", what))

    def whole(self) -> Plan:
        try:
            told = tomllib.loads(self.text)
        except tomllib.TOMLDecodeError as error:
            found = re.search(r"\(at line (\d+), column (\d+)\)", str(error))
            last = self.text.count("\n") + 1
            where = "%s:%s" % found.groups() if found else "%d:1" % last
            raise WrongUse("%s:%s: %s" % (self.name, where, str(error).split(" (at ")[0])) from None
        self.known(told, ())
        plan = Plan(self.value(told, ("name",), str, Path(self.name).stem), str(self.folder))
        plan.sheets = self.found(told, ("sheets",), SHEETS)
        if not plan.sheets:
            self.fault(("sheets",), "a plan names its sheets: files, folders or patterns")
        self.traces(plan, told.get("traces", {}))
        self.expected(plan, told.get("expect", {}))
        return plan

    def known(self, table: Any, at: tuple[str, ...]) -> None:
        """Every key is one that a plan has, and every table is one."""
        if not isinstance(table, dict):
            self.fault(at, "this is a table, and here is %s" % word_of(table))
        for key, value in table.items():
            if key not in KEYS[at]:
                self.fault((*at, key), "no plan has this key here; there are %s" % ", ".join(KEYS[at]))
            if (*at, key) in KEYS:
                self.known(value, (*at, key))

    def value(self, table: dict, key: tuple[str, ...], kind: type, otherwise: Any) -> Any:
        found = table.get(key[-1], otherwise)
        if found is not otherwise and (not isinstance(found, kind) or isinstance(found, bool) and kind is not bool):
            self.fault(key, "%s is due, and here is %s" % (word_of(kind()), word_of(found)))
        return found

    def words(self, table: dict, key: tuple[str, ...]) -> list[str]:
        """A list of texts, or one text."""
        found = table.get(key[-1], [])
        found = [found] if isinstance(found, str) else found
        if not isinstance(found, list) or not all(isinstance(word, str) for word in found):
            self.fault(key, "a list of texts is due, and here is %s" % word_of(found))
        return found

    def found(self, table: dict, key: tuple[str, ...], suffixes: tuple[str, ...]) -> list[str]:
        """The files that are named. A folder or a pattern that gives none is a fault; a file that is missing is a failed job, later."""
        names: dict[str, None] = {}
        for word in self.words(table, key):
            path = self.folder / word
            if glob.has_magic(word) and not path.exists():
                matched = sorted(p for p in glob.glob(str(path), recursive=True) if Path(p).is_file())
            elif path.is_dir():
                matched = sorted(str(p) for p in path.iterdir() if p.suffix in suffixes)
            else:
                matched = [str(path)]
            if not matched:
                self.fault(key, "%s gives no file%s" % (word, " " + ", ".join(suffixes) if path.is_dir() else ""))
            names |= dict.fromkeys(os.path.relpath(name, self.folder) for name in matched)
        return list(names)

    def span(self, table: dict, key: tuple[str, ...]) -> range:
        """`[first, last]`, both of them meant."""
        found = table[key[-1]]
        pair = found if isinstance(found, list) else [found, found]
        if len(pair) != 2 or not all(isinstance(n, int) and not isinstance(n, bool) for n in pair) or not 0 <= pair[0] <= pair[1]:
            self.fault(key, "[first, last] is due, two numbers of which the last is no smaller, and here is %s" % (found,))
        return range(pair[0], pair[1] + 1)

    def traces(self, plan: Plan, table: dict) -> None:
        plan.files = self.found(table, ("traces", "files"), TRACES)
        if "starts" in table:
            plan.starts = self.span(table, ("traces", "starts"))
        plan.sampled = self.sampled(table)
        random = table.get("random")
        if random is not None:
            for key in ("seeds", "ticks"):
                if key not in random:
                    self.fault(("traces", "random"), "%s is missing" % key)
            plan.seeds = self.span(random, ("traces", "random", "seeds"))
            plan.ticks = self.value(random, ("traces", "random", "ticks"), int, 0)
            if not 0 <= plan.ticks <= MOST_TICKS:
                self.fault(("traces", "random", "ticks"), "0 to %d are possible, not %d" % (MOST_TICKS, plan.ticks))
        if not plan.traces:
            self.fault(("traces",), "a plan names its traces: files, or random ones")

    def sampled(self, table: dict) -> Sampled:
        """How value change dumps are sampled."""
        found = Sampled(*(self.value(table, ("traces", key), str, None) for key in ("clock", "every", "scope")))
        if found.clock is not None and found.every is not None:
            self.fault(("traces", "every"), "clock and every are two ways to sample a dump: give one")
        try:
            seconds(found.every or "1 ns")
        except ValueError:
            self.fault(("traces", "every"), "a time above 0 is due, as 10ns, and not '%s'" % found.every)
        return found

    def expected(self, plan: Plan, table: dict) -> None:
        plan.columns = self.value(table, ("expect", "columns"), bool, False)
        plan.zero = self.words(table, ("expect", "zero"))
        same = self.value(table, ("expect", "same"), str, None)
        plan.same = same
        if plan.columns and not plan.files:
            self.fault(("expect", "columns"), "recorded columns are asked for, and no trace is recorded: traces.files is missing")


def word_of(value: Any) -> str:
    """What a value is, in words."""
    return {str: "a text", int: "a number", bool: "true or false", list: "a list", dict: "a table", float: "a number with a point"}.get(type(value), "a %s" % type(value).__name__)


def line_of(text: str, key: tuple[str, ...]) -> int:
    """The line in which a key stands: below its table's head, or in its table's own line; else the table's, else the last."""
    lines, table, best = text.splitlines(), (), len(text.splitlines()) or 1
    for number, line in enumerate(lines, 1):
        head = re.match(r"\s*\[+\s*([^\]#]+?)\s*\]+\s*(#.*)?$", line)
        if head:
            table = tuple(part.strip().strip("\"'") for part in head[1].split("."))
            if key == table:
                return number
            continue
        for found in re.finditer(r"[\w.\"'-]+(?=\s*=)", line.split("#")[0]):
            dotted = tuple(part.strip("\"'") for part in found[0].split("."))
            if (*table, *dotted) == key:
                return number
            # a key of an inline table stands in the line of its table, or below it
            if dotted[-1:] == key[-1:] and table == key[:len(table)]:
                best = min(best, number)
    if best == len(lines) and len(key) > 1:
        return line_of(text, key[:-1])
    return best


def read_plan(name: str) -> Plan:
    """The plan in a file. WrongUse at its first fault."""
    return Reader(name, need_text(name, raw(name))).whole()
