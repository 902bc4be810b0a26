"""Deltawobble at the desk: sheets of the linear lambda calculus, their netlists, and what is wrong with them.

Every number, place, netlist, text and trace comes from the proved calls of libdeltawobble; this package only asks and shows.

    >>> import deltawobble
    >>> sheet = bytes.fromhex("01 03 00 00 13 01 11 00")
    >>> net = deltawobble.Netlist.parse(deltawobble.translate(sheet))
    >>> net.pins
    [0, 1]
    >>> deltawobble.translate(bytes.fromhex("01 14 1A 00 00 1A 00 00"))
    Traceback (most recent call last):
    deltawobble.answer.Refused: refused 12 at node 0: The types do not fit at this node.
    >>> made = deltawobble.make("main = fun x : 1. fun y : 1. xor x y")
    >>> deltawobble.run(made, {"x": [0, 1, 1], "y": [0, 0, 1]})["out"]
    [0, 1, 0]

A sheet is bytes, what `make` gives, or a path. A refusal is raised as `Refused`, a file that cannot be used as `WrongUse` (a text as its
`NotationError`), and wrong arguments are TypeError or ValueError.

The calls: translate, stretch, batch, verilog, run, never, check, back; `Traces` runs sixteen traces at once, of any length. What they take and
give: Sheet, Node, Type, Netlist, Element, Ran, Searched, Made, Refused.
Notation: `make` gives the sheet of a text, `show` the text of a sheet (docs/NOTATION.md). `explain` says a refusal in words.
"""
from .answer import Refused
from .api import back, batch, check, explain, make, never, run, show, stretch, translate, verilog
from .calls import Searched
from .engine import NoCall, NoLibrary
from .files import WrongUse
from .lanes import Traces
from .netlist import Element, Netlist
from .notation import Made, NotationError
from .ran import Ran
from .sheet import Node, Sheet
from .types import Type
from .version import __version__

__all__ = ["__version__", "translate", "stretch", "batch", "verilog", "run", "never", "check", "back", "Traces", "Searched", "explain", "make", "show",
           "Sheet", "Node", "Type", "Netlist", "Element", "Ran", "Made", "Refused", "WrongUse", "NotationError", "NoLibrary", "NoCall"]
