"""deltawobble campaign: many traces through many sheets."""
from __future__ import annotations

import argparse
import json
import sys
import time
from collections import Counter
from pathlib import Path
from typing import Iterable, Iterator

from ..campaign import Rate, Run, Store, prepared
from ..files import WrongUse
from ..jobs import PARCEL, done
from ..pages import pages
from ..plan import Plan, read_plan
from ..terminal import paint
from ..workers import Dask, Local, Workers, cores

WORDS = "run the traces of a plan through its sheets, on all cores or by Dask, and hold the outputs against what is expected"
EXAMPLE = "deltawobble campaign examples/campaign.toml\ndeltawobble campaign examples/campaign.toml --resume --scheduler tcp://127.0.0.1:8786"
#: seconds between two lines of progress where standard error is no terminal
EVERY = 10
RESULTS = ("passed", "failed", "refused", "wrong")
#: failed jobs that the table names, and report pages at the most
SHOWN, MOST_PAGES = 20, 1000
#: jobs of a parcel, at most
MOST_PARCEL = 1 << 20


def add(parser: argparse.ArgumentParser) -> None:
    parser.add_argument("plan", help="a TOML file: sheets, traces, and what is expected (docs/CAMPAIGNS.md)")
    parser.add_argument("-o", metavar="FOLDER", dest="folder", help="where the results go; PLAN.results where it is not said")
    parser.add_argument("--resume", action="store_true", help="go on with a campaign that was broken off: what is done is not done again")
    parser.add_argument("--jobs", type=int, metavar="N", help="so many processes on this machine; as many as it has cores where it is not said")
    parser.add_argument("--parcel", type=int, metavar="N", default=PARCEL,
                        help="hand so many jobs of a sheet to a worker at once (%(default)s); the same with --resume")
    parser.add_argument("--pages", type=int, metavar="N", default=SHOWN, help="a report page for each of the first N failed jobs (%(default)s)")
    parser.add_argument("--scheduler", metavar="ADDRESS", help="hand the jobs to the workers of a Dask scheduler, tcp://HOST:PORT or tls://HOST:PORT")
    for name, what in (("ca-file", "the authority's certificate"), ("cert", "this client's certificate"), ("key", "this client's key")):
        parser.add_argument("--tls-" + name, metavar="FILE", help="for tls://: %s, handed to Dask" % what)


def run(given: argparse.Namespace) -> int:
    if given.jobs is not None and given.jobs < 1:
        raise WrongUse("--jobs is a number, 1 or more")
    if not 1 <= given.parcel <= MOST_PARCEL:
        raise WrongUse("--parcel is a number, 1 to %d" % MOST_PARCEL)
    if not 0 <= given.pages <= MOST_PAGES:
        raise WrongUse("--pages is a number, 0 to %d" % MOST_PAGES)
    plan = read_plan(given.plan)
    store = Store(given.folder or str(Path(given.plan).with_suffix(".results")), given.resume)
    campaign = prepared(plan, given.parcel)
    teller = Teller(campaign.jobs, given.json)
    teller.there(campaign.unusable)
    workers = workers_of(given)
    try:
        Run(campaign, store, workers, teller.take, teller.there).all()
    except KeyboardInterrupt:
        teller.close()
        print("stopped: %s; --resume goes on" % teller.rate.words(), file=sys.stderr)
        return 130
    finally:
        teller.close()
        workers.close()
    tally = Tally()
    store.write(store.folder / "results.jsonl", tally.through(store.all(campaign)))
    return tell(tally, plan, store, given, teller)


def workers_of(given: argparse.Namespace) -> Workers:
    if given.scheduler:
        return Dask.at(done, given.scheduler, given.tls_ca_file, given.tls_cert, given.tls_key)
    if given.tls_ca_file or given.tls_cert or given.tls_key:
        raise WrongUse("--tls-ca-file, --tls-cert and --tls-key go with --scheduler")
    return Local(done, given.jobs or cores())


class Teller:
    """Progress on standard error, with a rate and an estimate; with --json each result as a line on standard output, as it comes."""

    def __init__(self, total: int, as_json: bool):
        self.rate, self.as_json, self.when, self.over = Rate(total), as_json, time.monotonic(), sys.stderr.isatty()

    def there(self, results: list[dict]) -> None:
        """What was there before is counted, and said too."""
        self.rate.there(len(results))
        self.print(results)

    def print(self, results: Iterable[dict]) -> None:
        if self.as_json:
            for result in results:
                print(json.dumps(result), flush=True)

    def take(self, results: list[dict]) -> None:
        self.rate.take(len(results))
        self.print(results)
        now = time.monotonic()
        if now - self.when >= (1 if self.over else EVERY):
            self.when = now
            print("\r\033[K" + self.rate.words() if self.over else self.rate.words(), end="" if self.over else "\n", file=sys.stderr, flush=True)

    def close(self) -> None:
        if self.over:
            print("\r\033[K", end="", file=sys.stderr, flush=True)


class Tally:
    """Results counted as they pass: by sheet, and the first ones that are not as they should be."""

    def __init__(self) -> None:
        self.by_sheet: dict[str, Counter] = {}
        self.bad: list[dict] = []

    def through(self, results: Iterable[dict]) -> Iterator[dict]:
        for result in results:
            self.by_sheet.setdefault(result["sheet"] or result["trace"], Counter())[result["result"]] += 1
            if result["result"] != "passed" and len(self.bad) < MOST_PAGES:
                self.bad.append(result)
            yield result

    @property
    def whole(self) -> Counter:
        return sum(self.by_sheet.values(), Counter())

    def table(self) -> list[str]:
        wide = max([len(name) for name in self.by_sheet] + [5])
        lines = ["%-*s  %s" % (wide, "sheet", "  ".join("%9s" % word for word in RESULTS))]
        return lines + ["%-*s  %s" % (wide, name, "  ".join("%9d" % counts[word] for word in RESULTS)) for name, counts in self.by_sheet.items()]


def tell(tally: Tally, plan: Plan, store: Store, given: argparse.Namespace, teller: Teller) -> int:
    """The table: a line for each sheet, the first failed jobs, and how many of each."""
    made, missing = pages(tally.bad, plan, store.folder, given.pages)
    whole, jobs = tally.whole, sum(tally.whole.values())
    bad = jobs - whole["passed"]
    if not given.json:
        print("\n".join(tally.table()))
        for result in tally.bad[:SHOWN]:
            print("%s  %s" % (paint("%-7s" % result["result"], "red"), said(result)))
        if bad > SHOWN:
            print("and %d more, in %s" % (bad - SHOWN, store.folder / "results.jsonl"))
        print("%d jobs: %s" % (jobs, ", ".join("%d %s" % (whole[word], word) for word in RESULTS)))
        print("%s; the results are %s%s" % (teller.rate.words(), store.folder / "results.jsonl", "; %d report pages beside it" % made if made else ""))
        if missing:
            print(missing)
    return 0 if not bad else 1


def said(result: dict) -> str:
    where = " ".join(str(word) for word in (result["sheet"], result["trace"]) if word)
    start = " start %d" % result["start"] if result.get("start") else ""
    return "%s%s: %s" % (where, start, result["why"])
