"""Installing below a prefix and away again; the manual page and the completions; versions and hashes; the order of the proofs."""
from __future__ import annotations

import json
import os
import re
import shutil
import subprocess
import sys
import tempfile
import unittest
from pathlib import Path
from unittest import mock

from deltawobble import engine, manual, version

from .support import EXAMPLES, ROOT, command, with_library
from .test_commands import Folder

sys.path.insert(0, str(ROOT / "desk"))

import proving  # noqa: E402
import record  # noqa: E402
import remove  # noqa: E402

INSTALL = str(ROOT / "desk" / "install")
BUILT = unittest.skipUnless((engine.MADE / "built.json").exists(), "NOT RUN: desk/build has made nothing here")


def tree(folder: Path) -> dict[str, bytes]:
    """Every file below a folder, and every folder."""
    return {str(p.relative_to(folder)): p.read_bytes() if p.is_file() else b"folder" for p in folder.rglob("*")}


def install(*words: str, **env: str) -> subprocess.CompletedProcess:
    return subprocess.run([INSTALL, *words], env=dict(os.environ, **env), capture_output=True, text=True)


@BUILT
class Installed(Folder):
    def setUp(self):
        super().setUp()
        self.prefix = Path(self.path("a prefix"))
        (self.prefix / "share").mkdir(parents=True)
        (self.prefix / "share" / "mine").write_text("mine\n")
        self.before = tree(Path(self.made.name))

    @with_library
    def test_installed_used_and_away_again(self):
        done = install(str(self.prefix))
        self.assertEqual(done.returncode, 0, done.stderr)
        there = tree(self.prefix)
        for place in ("bin/deltawobble", "lib/libdeltawobble.so", "lib/libdeltawobble.a", "include/deltawobble.h", "lib/pkgconfig/deltawobble.pc",
                      "share/man/man1/deltawobble.1", "share/bash-completion/completions/deltawobble", "share/zsh/site-functions/_deltawobble",
                      "share/deltawobble/vim/syntax/deltawobble.vim", "share/deltawobble/textmate/syntaxes/deltawobble.tmLanguage.json",
                      "share/doc/deltawobble/examples/sticky.dw"):
            self.assertIn(place, there)
        # nothing points back
        self.assertEqual([place for place, data in there.items() if str(ROOT).encode() in data], [])
        run = subprocess.run([self.prefix / "bin" / "deltawobble", "listing", "share/doc/deltawobble/examples/P3.hex"], cwd=self.prefix,
                             env={"PATH": os.environ["PATH"]}, capture_output=True, text=True)
        self.assertEqual((run.returncode, run.stdout), (0, (EXAMPLES / "P3.listing").read_text()), run.stderr)
        called = "from deltawobble import engine; print(engine.find().name)"
        site = next((self.prefix / "lib").glob("python3*")) / "site-packages"
        run = subprocess.run([sys.executable, "-c", called], env={"PATH": os.environ["PATH"], "PYTHONPATH": str(site)}, cwd="/", capture_output=True, text=True)
        self.assertEqual(run.stdout, "%s, in this process\n" % (site / "deltawobble" / "built" / "libdeltawobble.so"))
        self.assertEqual(install(str(self.prefix)).returncode, 0, "once more, over itself")
        self.assertEqual(install("--remove", str(self.prefix)).returncode, 0)
        self.assertEqual(tree(Path(self.made.name)), self.before)

    def test_a_prefix_that_was_not_there_goes_too(self):
        self.assertEqual(install(self.path("new")).returncode, 0)
        self.assertEqual(install("--remove", self.path("new")).returncode, 0)
        self.assertEqual(tree(Path(self.made.name)), self.before)

    def test_away_without_a_checkout(self):
        self.assertEqual(install(str(self.prefix)).returncode, 0)
        moved = Path(self.path("moved"))
        self.prefix.rename(moved)
        subprocess.run([moved / "share" / "deltawobble" / "remove"], check=True, stdout=subprocess.DEVNULL)
        moved.rename(self.prefix)
        self.assertEqual(tree(Path(self.made.name)), self.before)

    def test_a_file_that_somebody_has_changed_stays(self):
        self.assertEqual(install(str(self.prefix)).returncode, 0)
        changed = self.prefix / "share/doc/deltawobble/examples/sticky.dw"
        changed.write_text("main = zero\n")
        done = install("--remove", str(self.prefix))
        self.assertIn("sticky.dw stays: it has been changed", done.stdout)
        self.assertEqual([p for p in tree(self.prefix) if p.endswith((".dw", ".py", "manifest"))], ["share/doc/deltawobble/examples/sticky.dw"])

    def test_a_file_of_somebody_else_stops_it(self):
        (self.prefix / "bin").mkdir()
        (self.prefix / "bin" / "deltawobble").write_text("theirs\n")
        before = tree(Path(self.made.name))
        done = install(str(self.prefix))
        self.assertEqual(done.returncode, 2)
        self.assertIn("no desk/install has written it: nothing is done", done.stderr)
        self.assertEqual(tree(Path(self.made.name)), before)
        self.assertEqual(install("--remove", str(self.prefix)).returncode, 2)

    def test_where_nothing_can_be_written(self):
        for place in (str(self.prefix / "share" / "mine" / "below"), "/proc/deltawobble"):
            done = install(place)
            self.assertEqual(done.returncode, 2, place)
            self.assertIn("nothing is installed", done.stderr)
            self.assertNotIn("Traceback", done.stderr)
        self.assertEqual(tree(Path(self.made.name)), self.before)

    def test_a_full_disk_leaves_nothing_behind(self):
        # a process may write no file longer than 40,000 bytes: the library is longer
        done = subprocess.run(["bash", "-c", 'trap "" XFSZ; ulimit -f 40; exec "$0" "$1"', INSTALL, str(self.prefix / "new" / "one")], capture_output=True, text=True)
        self.assertEqual(done.returncode, 2, done.stderr)
        self.assertNotIn("Traceback", done.stderr)
        self.assertEqual(tree(Path(self.made.name)), self.before)

    def test_wrong_words(self):
        self.assertEqual(install("--what").returncode, 2)
        self.assertEqual(install("a", "b").returncode, 2)


class Manual(unittest.TestCase):
    def test_the_page_has_every_command_and_option(self):
        page = manual.man()
        for name, _, parser in manual.commands():
            self.assertIn(".SS \\fBdeltawobble %s\\fR" % name, page)
            for action in manual.options(parser):
                self.assertIn("\\fB%s\\fR" % manual.roff(action.option_strings[-1]), page)

    @unittest.skipUnless(shutil.which("groff"), "NOT RUN: there is no groff")
    def test_roff_takes_it(self):
        done = subprocess.run(["groff", "-man", "-Tutf8", "-ww"], input=manual.man().encode(), capture_output=True)
        self.assertEqual((done.returncode, done.stderr), (0, b""))

    def test_bash_completes(self):
        ask = 'eval "$1"; COMP_WORDS=("${@:2}"); COMP_CWORD=$(($# - 2)); _deltawobble; printf "%s\\n" "${COMPREPLY[@]}"'
        for words, wanted in ((["deltawobble", "tr"], "translate"), (["deltawobble", "run", "--wa"], "--waves"), (["deltawobble", "--ver"], "--version")):
            done = subprocess.run(["bash", "-c", ask, "bash", manual.bash(), *words], capture_output=True, text=True)
            self.assertEqual(done.stdout.split(), [wanted], done.stderr)

    @unittest.skipUnless(shutil.which("zsh"), "NOT RUN: there is no zsh")
    def test_zsh_reads_it(self):
        done = subprocess.run(["zsh", "-n"], input=manual.zsh(), capture_output=True, text=True)
        self.assertEqual((done.returncode, done.stderr), (0, ""))

    @unittest.skipUnless(shutil.which("vim"), "NOT RUN: there is no vim")
    def test_vim_knows_the_words(self):
        editor = ROOT / "desk" / "editors" / "vim"
        ask = 'call writefile(map([[2, 1], [2, 9], [3, 1], [3, 5], [4, 1], [4, 43], [5, 1]], {_, p -> synIDattr(synID(p[0], p[1], 1), "name")}) + [&filetype], "/dev/stdout")'
        with tempfile.TemporaryDirectory() as folder:
            text = Path(folder) / "x.dw"
            text.write_text("-- a\nedition 2\nuse \"a.dw\"\nsticky = fun set : 1. fix s : 1. or (set, reg s)\nrow[a]{n + 1} = one\n")
            done = subprocess.run(["vim", "-u", "NONE", "-es", "--cmd", "set rtp+=%s" % editor, "-c", "filetype plugin on", "-c", "syntax on",
                                   "-c", "edit " + str(text), "-c", ask, "-c", "qa!"], capture_output=True, text=True, stdin=subprocess.DEVNULL)
        self.assertEqual(done.stdout.split(), ["dwKeyword", "dwNumber", "dwKeyword", "dwFile", "dwDefinition", "dwPart", "dwDefinition", "deltawobble"], done.stderr)

    def test_the_grammar_of_textmate_knows_the_words(self):
        from deltawobble.notation.words import PART_NUMBERS, RESERVED
        grammar = json.loads((ROOT / "desk/editors/textmate/syntaxes/deltawobble.tmLanguage.json").read_text())
        rules = {rule["name"].removesuffix(".deltawobble"): rule["match"] for rule in grammar["patterns"]}
        vim = (ROOT / "desk/editors/vim/syntax/deltawobble.vim").read_text()
        for word in RESERVED:
            self.assertRegex(word, rules["keyword.control"])
            self.assertRegex(vim, r"dwKeyword.*\b%s\b" % word)
        for line, name in (("f = one", "f"), ("row[a, b]{n + 1} = a", "row"), ("g {0} = one", "g")):
            self.assertEqual(re.search(rules["entity.name.function"], line)[0], name)
        self.assertRegex('use "a.dw"', rules["keyword.control.use"])
        for word in PART_NUMBERS:
            self.assertRegex(word, rules["support.function.part"])
            self.assertRegex(vim, r"dwPart.*\b%s\b" % word)


@BUILT
class Versions(Folder):
    def test_version(self):
        status, out, _ = command("--version")
        known = json.loads((engine.MADE / "built.json").read_text())
        self.assertEqual(status, 0)
        self.assertEqual([line.split(None, 1)[1] for line in out.splitlines()], [version.__version__, known["commit"], known["archive"], known["toolchain"]])
        self.assertEqual(known["archive"], version.sha256(record.ARCHIVE))

    def copy(self) -> Path:
        """What is built, in a place of its own, with a gate's record of it."""
        place = Path(self.path("built"))
        place.mkdir()
        known = json.loads((engine.MADE / "built.json").read_text())
        known["gate"] = {key: known[key] for key in ("toolchain", "sources", "archive")}
        (place / "built.json").write_text(json.dumps(known))
        (place / "how.json").write_text('{"library": "libdeltawobble.so"}')
        shutil.copy(engine.MADE / "libdeltawobble.so", place)
        shutil.copy(record.ARCHIVE, place)
        return place

    @with_library
    def test_verify(self):
        place = self.copy()
        with mock.patch.object(engine, "CARRIED", place), mock.patch.dict("os.environ"):
            os.environ.pop("DELTAWOBBLE_LIBRARY", None)
            self.assertEqual(command("verify")[0], 0)
            self.assertTrue(json.loads(command("verify", "--json")[1])["accepted"])
            for name in ("libdeltawobble.so", "libdeltawobble.a"):
                data = bytearray((place / name).read_bytes())
                data[-1] ^= 1
                (place / name).write_bytes(data)
                status, out, _ = command("verify")
                self.assertEqual(status, 1)
                self.assertIn("the build has ", out)
                self.assertTrue(out.endswith("this is not what the gate proved\n"))
                shutil.copy(engine.MADE / name if name.endswith("so") else record.ARCHIVE, place)
            known = json.loads((place / "built.json").read_text())
            known["gate"]["archive"] = "0" * 64
            (place / "built.json").write_text(json.dumps(known))
            self.assertEqual(command("verify")[0], 1)

    def test_another_library_has_no_hash(self):
        with mock.patch.dict("os.environ", DELTAWOBBLE_LIBRARY="x"):
            self.assertEqual(command("verify")[0], 2)

    def test_the_gate_s_record(self):
        taken = Path(self.path("seconds.json"))
        taken.write_text('{"laws": 3}')
        stored = Path(self.path("proved.json"))
        with mock.patch.object(record, "PROVED", stored), mock.patch.object(record, "TAKEN", taken), mock.patch("builtins.print"):
            self.assertEqual(record.gate(), 0)
            first = json.loads(stored.read_text())
            self.assertEqual(first["seconds"], {"laws": 3})
            self.assertEqual(record.gate(), 0)
            stored.write_text(json.dumps(dict(first, archive="0" * 64)))
            self.assertEqual(record.gate(), 1, "the same sources, another archive")
            taken.write_text('{"laws": 1, "lean": 2}')
            stored.write_text(json.dumps(dict(first, sources="0" * 64)))
            self.assertEqual(record.gate(), 0)
            self.assertEqual(json.loads(stored.read_text())["sources"], first["sources"])
            self.assertEqual(json.loads(stored.read_text())["seconds"], {"laws": 3, "lean": 2}, "over kept work less is taken")


class Proving(unittest.TestCase):
    CRATES = {"a": [], "b": [], "c": ["a"], "d": ["a"], "e": ["b"], "f": ["c", "e"]}

    def test_the_order(self):
        self.assertEqual(proving.closure("f", self.CRATES), ["a", "c", "b", "e", "f"])
        self.assertEqual(proving.longest({"a": 1, "b": 4}, {"b": 3, "c": 2}), {"a": 1, "b": 4, "c": 2})

    def test_what_a_crate_stands_on(self):
        found = proving.closure("deltawobble", proving.dependencies())
        self.assertEqual(found[-1], "deltawobble")
        self.assertNotIn("listing", found)
        self.assertEqual(len(found), len(set(found)))

    def test_the_line(self):
        watch, said = proving.Watch(["a", "d", "e"], {"a": 100, "d": 240, "e": 50}), "rt: chose --jobs 2 for %s\n"
        self.assertEqual((watch.line(), watch.busy()), ("crate 1 of 3, a, about 6 min left", False))
        watch.look("")
        watch.look(said % "a" + "fn a::f: proved\n")
        self.assertEqual((watch.line(), watch.busy()), ("crate 1 of 3, a, about 6 min left", True))
        watch.since -= 100
        watch.look(said % "a" + said % "e")
        self.assertEqual(watch.line(), "crate 3 of 3, e, about 50 s left")
        self.assertEqual({name: round(took) for name, took in watch.took.items()}, {"a": 100})
        watch.look(said % "a" + said % "e", ended=True)
        self.assertEqual((watch.left(), watch.busy(), list(watch.took)), (0.0, False, ["a", "e"]))

    def test_minutes_and_seconds(self):
        self.assertEqual([proving.about(s) for s in (0, 12.4, 89, 91, 250)], ["1 s", "12 s", "89 s", "2 min", "4 min"])
