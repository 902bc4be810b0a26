"""deltawobble verify: whether what is called is what the gate proved."""
from __future__ import annotations

import argparse
import json
import os

from ..files import WrongUse
from ..terminal import paint
from ..version import verify

WORDS = "hold the library that is called against the hash that the gate wrote"
EXAMPLE = "deltawobble verify"


def add(parser: argparse.ArgumentParser) -> None:
    """It has nothing to ask for."""


def run(given: argparse.Namespace) -> int:
    if os.environ.get("DELTAWOBBLE_LIBRARY"):
        raise WrongUse("DELTAWOBBLE_LIBRARY names another library, of which no hash is known")
    verdict = verify()
    if given.json:
        print(json.dumps({"accepted": verdict.good, "lines": verdict.lines}))
    else:
        print("\n".join(verdict.lines))
        print(paint("this is what the gate proved", "green") if verdict.good else paint("this is not what the gate proved", "red"))
    return 0 if verdict.good else 1
