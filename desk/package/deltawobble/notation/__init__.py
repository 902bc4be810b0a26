"""The notation in which a person writes a sheet with names (docs/NOTATION.md)."""
from .made import Made, check_unused, make
from .shower import show
from .text import NotationError

__all__ = ["check_unused", "make", "show", "Made", "NotationError"]
