"""The command `deltawobble`: its subcommands, and what it says where it is used wrongly.

Exit status: 0 accepted, 1 refused, 2 wrong use (130 after Ctrl-C, 141 where the reader has gone).
"""
from __future__ import annotations

import argparse
import functools
import importlib
import json
import signal
import sys
import threading
from typing import Optional, Sequence

from . import outputs, streams
from .answer import Refused
from .engine import NoLibrary
from .files import WrongUse
from .notation import NotationError
from .terminal import paint
from .version import Version

COMMANDS = ("listing", "translate", "explain", "where", "batch", "verilog", "run", "registers", "check", "back", "inline", "draw", "report", "show",
            "make", "prove", "reach", "same", "campaign", "verify")


@functools.cache
def parser() -> argparse.ArgumentParser:
    """The command's parser: each subcommand's help ends with an example."""
    top = argparse.ArgumentParser(
        prog="deltawobble", description="Sheets of the linear lambda calculus, their netlists, and what is wrong with them.",
        epilog="Exit status: 0 accepted, 1 refused, 2 wrong use. 'deltawobble COMMAND --help' shows an example.")
    top.add_argument("--version", action=Version, help="say the version, the commit, and the hashes of archive and toolchain")
    commands = top.add_subparsers(dest="command", metavar="COMMAND", required=True)
    for name in COMMANDS:
        module = importlib.import_module(".commands." + name, __package__)
        sub = commands.add_parser(name, help=module.WORDS, description=module.WORDS[0].upper() + module.WORDS[1:] + ".",
                                  epilog="example:\n  " + module.EXAMPLE.replace("\n", "\n  "), formatter_class=argparse.RawDescriptionHelpFormatter)
        module.add(sub)
        sub.add_argument("--json", action="store_true", help="the answer as JSON, for programs")
        sub.set_defaults(run=module.run)
    return top


def main(words: Optional[Sequence[str]] = None) -> int:
    """Runs the command and gives its exit status."""
    try:
        # this loads the subcommands. Until it is done Ctrl-C is the script's: an interrupt in the middle of a class comes out as another error
        known = parser()
        if threading.current_thread() is threading.main_thread() and signal.getsignal(signal.SIGINT) != signal.SIG_IGN:
            signal.signal(signal.SIGINT, signal.default_int_handler)
        streams.ready()
        given = known.parse_args(words)
        outputs.settled(given)
        status = given.run(given)
        sys.stdout.flush()
        return status
    except Refused as refused:
        streams.tell(paint(str(refused), "red", sys.stderr))
        return 1
    except NotationError as error:
        if given.json:
            print(json.dumps(error.as_json()))
        else:
            streams.tell(str(error))
        return 2
    except (WrongUse, NoLibrary) as error:
        streams.tell("deltawobble: %s" % error)
        return 2
    except KeyboardInterrupt:
        streams.drop_output()
        streams.tell("deltawobble: stopped")
        return 130
    except BrokenPipeError:
        streams.drop_output()
        return 141
    except OSError as error:
        streams.tell("deltawobble: %s" % error)
        streams.drop_output()
        return 2
