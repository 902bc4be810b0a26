"""deltawobble reach: a shortest trace that brings an output pin to 1."""
from __future__ import annotations

import argparse

from .prove import add, asked

WORDS = "find a shortest trace that brings an output pin to 1; status 1 where none can"
EXAMPLE = """deltawobble reach examples/comparator-divergence.dw --pin out.0 --starts all=0
deltawobble reach examples/never/counter-wraps.dw --starts all=0 -o wraps.trace"""
__all__ = ["WORDS", "EXAMPLE", "add", "run"]


def run(given: argparse.Namespace) -> int:
    return asked(given, reach=True)
