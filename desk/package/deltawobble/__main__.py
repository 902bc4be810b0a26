"""python3 -m deltawobble: the command."""
import os
import signal
import sys

# Ctrl-C while the subcommands are loaded, as in the desk's own script
if signal.getsignal(signal.SIGINT) != signal.SIG_IGN:
    signal.signal(signal.SIGINT, lambda *_: os._exit(130))

from .cli import main  # noqa: E402

status = main()
# all is said and written: a Ctrl-C from here on changes nothing
signal.signal(signal.SIGINT, signal.SIG_IGN)
sys.exit(status)
