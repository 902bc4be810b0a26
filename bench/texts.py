"""Asks the second program, the transliteration of the definitions and, where it is there, the proved call what sheet each text has, and
compares the answers."""
from __future__ import annotations

import collections
import struct
import subprocess
import sys
from collections.abc import Callable
from pathlib import Path

ROOT = Path(__file__).resolve().parent.parent
SECOND = ROOT / "second/target/release/second"
SHOWN = 10
HAS_TO_OCCUR = {"made"} | {f"refused {number}" for number in range(30, 37)}

sys.path[:0] = [str(ROOT / "desk/package"), str(ROOT / "desk")]
from deltawobble import NoLibrary  # noqa: E402
from deltawobble.notation.call import Refusal, make  # noqa: E402
from deltawobble.notation.uses import joined  # noqa: E402
from tests.definitions import make_by_definition  # noqa: E402


def generated(seed: int, count: int) -> bytes:
    return subprocess.run([SECOND, "texts", str(seed), str(count)], check=True, capture_output=True).stdout


def examples() -> list[bytes]:
    """The texts of examples/, with the files that they use."""
    return [joined(str(path), path.read_bytes()).data for path in sorted((ROOT / "examples").rglob("*.dw"))]


def packed_again(texts: list[bytes]) -> bytes:
    return b"".join(struct.pack("<I", len(text)) + text for text in texts)


def unpacked(packed: bytes) -> list[bytes]:
    texts, at = [], 0
    while at < len(packed):
        (length,) = struct.unpack_from("<I", packed, at)
        texts.append(packed[at + 4:at + 4 + length])
        at += 4 + length
    return texts


def answers_of_second(packed: bytes) -> list[str]:
    done = subprocess.run([SECOND, "makes"], input=packed, check=True, capture_output=True)
    return done.stdout.decode().splitlines()


def made(sheet: bytes, places: list[int]) -> str:
    return f"made / {sheet.hex(' ').upper()} / {' '.join(map(str, places))}"


def answer_by_definition(text: bytes) -> str:
    answer = make_by_definition(text)
    return f"refused {answer[1]} {answer[2]}" if answer[0] == "refused" else made(*answer[1:])


def answer_of_call(text: bytes) -> str:
    try:
        return made(*make(text))
    except Refusal as refusal:
        return f"refused {refusal.number} {refusal.place}"


def programs() -> dict[str, Callable[[bytes], str]]:
    """What each text is asked of besides the second program."""
    found = {"the definitions": answer_by_definition}
    try:
        answer_of_call(b"")
    except NoLibrary as missing:
        print(f"the call is not asked: {missing}")
        return found
    return {**found, "the call": answer_of_call}


def sort_of(answer: str) -> str:
    return "made" if answer.startswith("made") else " ".join(answer.split()[:2])


def main(count: int = 20_000, seed: int = 1) -> int:
    texts = examples() + unpacked(generated(seed, count))
    second = answers_of_second(packed_again(texts))
    assert len(texts) == len(second) > count
    different, seen, asked = 0, collections.Counter(), programs()
    for text, answer in zip(texts, second):
        seen[sort_of(answer)] += 1
        others = {name: ask(text) for name, ask in asked.items()}
        if any(other != answer for other in others.values()):
            different += 1
            if different <= SHOWN:
                print(f"DIFFERENT {text!r}", *(f"  {name}: {other}" for name, other in {"second": answer, **others}.items()), sep="\n")
    print(", ".join(f"{sort} {times}" for sort, times in sorted(seen.items())))
    missing = sorted(HAS_TO_OCCUR - seen.keys())
    if missing:
        print("did not occur: " + ", ".join(missing))
    by = " and ".join(", ".join(["second", *asked]).rsplit(", ", 1))
    print(f"{len(texts)} texts, {count} of them generated, by {by}: {different} different")
    return 1 if different or missing else 0


if __name__ == "__main__":
    sys.exit(main(*map(int, sys.argv[1:])))
