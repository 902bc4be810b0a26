"""What the registers show next, kept in a file, so that a run goes on later: the sheet that it belongs to is held to it."""
from __future__ import annotations

import hashlib
import re
from dataclasses import dataclass

from .files import WrongUse, need_text, raw

FORM = re.compile(r"deltawobble state 1\nsheet ([0-9a-f]{64})\ntick ([0-9]{1,18})\nregisters ([01]*)\n")


@dataclass
class State:
    """A bit for each register by rising terminal, and the tick that comes next."""

    bits: bytes
    tick: int

    def written(self, sheet: bytes) -> bytes:
        words = ("deltawobble state 1", "sheet " + digest(sheet), "tick %d" % self.tick, "registers " + "".join(map(str, self.bits)))
        return ("\n".join(words) + "\n").encode()


def digest(sheet: bytes) -> str:
    return hashlib.sha256(sheet).hexdigest()


def read_state(name: str, sheet: bytes, registers: int) -> State:
    """The state in a file; wrong use where it is none, or another sheet's."""
    match = FORM.fullmatch(need_text(name, raw(name)))
    if not match:
        raise WrongUse("%s: this is no state that run --state-out wrote" % name)
    if match[1] != digest(sheet) or len(match[3]) != registers:
        raise WrongUse("%s: this is the state of another sheet" % name)
    return State(bytes(map(int, match[3])), int(match[2]))
