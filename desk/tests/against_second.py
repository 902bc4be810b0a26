"""What explain says, held to reports worked out again from the second program's listings: bench/explain runs it.

    python3 -m tests.against_second SECOND FOLDER      each FOLDER/*.sheet, and edges
"""
from __future__ import annotations

import subprocess
import sys
from collections import Counter
from pathlib import Path

import deltawobble

from . import fault_reports
from .test_explain import as_fault


def wanted(sheet: bytes, second: str) -> list[str]:
    """The report by the second program's listing."""
    listing = subprocess.run([second, "listing"], input=sheet, capture_output=True, check=True).stdout.decode().splitlines()
    if listing[0] == "full":
        return fault_reports.accepted(sheet, listing)
    return fault_reports.refused(sheet, *map(int, listing[0].split()[1:]))


def main() -> None:
    if len(sys.argv) != 3:
        sys.exit(__doc__)
    sheets = {path.name: path.read_bytes() for path in sorted(Path(sys.argv[2]).glob("*.sheet"))}
    sheets.update(fault_reports.edges())
    seen: Counter = Counter()
    for name, sheet in sheets.items():
        want, got = wanted(sheet, sys.argv[1]), as_fault(deltawobble.explain(sheet))
        if want != got:
            sys.exit("%s\nwanted:\n%s\ngot:\n%s" % (name, "\n".join(want), "\n".join(got)))
        seen[" ".join(want[0].split()[:2])] += 1
    print("%d sheets, no difference: %s" % (sum(seen.values()), ", ".join("%s %d times" % k for k in sorted(seen.items()))))


if __name__ == "__main__":
    main()
