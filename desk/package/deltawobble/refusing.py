"""How commands show a refusal: at its line and column in a notation, else the rule and what to look at."""
from __future__ import annotations

import json
import sys

from .answer import Refused
from .explain import refused_lines
from .files import Source
from .terminal import paint


def say(source: Source, refused: Refused, as_json: bool = False) -> int:
    """Shows a refusal of a sheet on standard error; the exit status is 1."""
    if as_json:
        print(json.dumps(dict(refused.as_json(), file=source.name)))
        return 1
    if source.made:
        lines = source.made.place_lines(source.bytes, refused)
        lines = lines or ["%s: %s" % (source.name, refused)]
    else:
        lines = ["%s: %s" % (source.name, refused)]
        report = refused_lines(source.bytes, refused, source.own)
        lines += [line for line in report if line.startswith(("wanted ", "look at: ", "terminal ", "made by "))]
        lines += ["(deltawobble explain shows more)"] if refused.number <= 16 else []
    print(paint(lines[0], "red", sys.stderr), *lines[1:], sep="\n", file=sys.stderr)
    return 1
