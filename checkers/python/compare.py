#!/usr/bin/env python3
"""Compares the checker with `verify` of a built program: `python3 compare.py RAML COUNT FILE ..`.

`RAML certify` makes the certificates of the programs FILE at degrees 1 to 3. Each, and COUNT altered ones, are given to
`RAML verify` and to check.py, which have to end with the same status and to write the same bytes. Where `verify` ends
with 9, since a number leaves its range, the checker has to tell whether the certificate holds: it ends with 0 or 7.
Alterations are drawn with a fixed seed. Ends with 1 where something differs.
"""

from __future__ import annotations

import copy
import json
import random
import subprocess
import sys
import tempfile
from collections.abc import Iterator
from pathlib import Path

CHECKER = Path(__file__).with_name("check.py")
DEGREES = (1, 2, 3)
SEED = 51


def ended(*words: str) -> tuple[int, bytes, bytes]:
    done = subprocess.run(words, capture_output=True)
    return done.returncode, done.stdout, done.stderr


def entries_in(value: object) -> Iterator[list]:
    """All entries, which are lists of a number and a text."""
    if isinstance(value, list) and len(value) == 2 and isinstance(value[0], int) and isinstance(value[1], str):
        yield value
    elif isinstance(value, (list, dict)):
        for inside in value.values() if isinstance(value, dict) else value:
            yield from entries_in(inside)


def change_number(draw: random.Random, certificate: dict) -> None:
    entry = draw.choice(list(entries_in(certificate["blocks"])))
    number = int(entry[1])
    entry[1] = str(draw.choice([number - 1, number + 1, 2 * number, number + 1000, 2**127 - 1]))


def change_position(draw: random.Random, certificate: dict) -> None:
    entry = draw.choice(list(entries_in(certificate["blocks"])))
    entry[0] = max(0, entry[0] + draw.choice([-1, 1, 1, 2, 5]))


def drop_entry(draw: random.Random, certificate: dict) -> None:
    block = draw.choice([block for block in certificate["blocks"] if any(entries_in(block))])
    if "farkas" in block:
        block["farkas"].pop(draw.randrange(len(block["farkas"])))
        return
    annotation = draw.choice([annotation for sig in block["sigs"] for annotation in sig] + hint_lists(block))
    if annotation:
        annotation.pop(draw.randrange(len(annotation)))


def hint_lists(block: dict) -> list[list]:
    """The lists in the hints of a block."""
    return [inside for hints in block.get("hints", []) for hint in hints for inside in hint.values()]


def move_block(draw: random.Random, certificate: dict) -> None:
    blocks = certificate["blocks"]
    block = blocks.pop(draw.randrange(len(blocks)))
    blocks.insert(draw.randrange(len(blocks) + 1), block)


def drop_block(draw: random.Random, certificate: dict) -> None:
    certificate["blocks"].pop(draw.randrange(len(certificate["blocks"])))


def double_block(draw: random.Random, certificate: dict) -> None:
    place = draw.randrange(len(certificate["blocks"]))
    certificate["blocks"].insert(place, copy.deepcopy(certificate["blocks"][place]))


def take_hint(draw: random.Random, certificate: dict) -> None:
    """A hint of one place stands at another one, mostly of the same kind."""
    hints = [hints for block in certificate["blocks"] for hints in block.get("hints", []) if hints]
    places = [(some, k) for some in hints for k in range(len(some))]
    some, k = draw.choice(places)
    alike = [other[m] for other, m in places if other[m].keys() == some[k].keys() and other[m] != some[k]]
    if alike and draw.random() < 0.8:
        some[k] = draw.choice(alike)
    else:
        other, m = draw.choice(places)
        some[k] = other[m]


def take_block(draw: random.Random, certificate: dict) -> None:
    """What was found in one block stands in another one."""
    blocks = certificate["blocks"]
    first, second = draw.choice(blocks), draw.choice(blocks)
    for key in ("sigs", "hints", "farkas", "calls"):
        first.pop(key, None)
        if key in second:
            first[key] = second[key]


def change_scale(draw: random.Random, certificate: dict) -> None:
    meter = draw.choice(sorted(certificate["scale"]))
    number = int(certificate["scale"][meter])
    certificate["scale"][meter] = str(draw.choice([number - 1, number + 1, 2 * number, 3 * number]))


def change_head(draw: random.Random, certificate: dict) -> None:
    key = draw.choice(["degree", "version"])
    certificate[key] += draw.choice([-1, 1])


ALTERATIONS = [
    change_number,
    take_hint,
    change_scale,
    move_block,
    change_number,
    take_block,
    drop_block,
    change_position,
    double_block,
    drop_entry,
    take_hint,
    change_head,
]


def alter(draw: random.Random, kind: int, text: str) -> str:
    """The text of an altered certificate. Where an alteration changes nothing, the next kind is tried."""
    while True:
        certificate = json.loads(text)
        try:
            ALTERATIONS[kind % len(ALTERATIONS)](draw, certificate)
        except IndexError:  # there is nothing to be drawn
            pass
        if certificate != json.loads(text):
            return json.dumps(certificate, separators=(",", ":"), sort_keys=True)
        kind += 1


class Comparison:
    def __init__(self, raml: str, folder: Path) -> None:
        self.raml, self.file = raml, folder / "certificate.json"
        self.differ = 0

    def agree(self, program: str, text: str, name: str) -> bool:
        """Whether both say the same of this certificate. Where they do not, the case is told."""
        self.file.write_text(text)
        verify = ended(self.raml, "verify", program, str(self.file))
        check = ended(sys.executable, str(CHECKER), program, str(self.file))
        if verify == check or verify[0] == 9 and check[0] in (0, 7):
            return True
        self.differ += 1
        kept = Path(tempfile.gettempdir()) / f"certificate-{self.differ}.json"
        kept.write_text(text)
        print(f"certificates: {name} differs; it is kept in {kept}")
        for who, (status, out, err) in (("verify", verify), ("check.py", check)):
            last = (err or out).decode(errors="replace").strip().splitlines()[-1:]
            print(f"  {who} ends with {status}: {' '.join(last)}")
        return False


def main(raml: str, count: str, programs: list[str]) -> int:
    with tempfile.TemporaryDirectory() as folder:
        comparison, draw = Comparison(raml, Path(folder)), random.Random(SEED)
        made: list[tuple[str, str, str]] = []
        for program in programs:
            for degree in DEGREES:
                status, out, err = ended(raml, "certify", program, "--degree", str(degree))
                if status == 0:
                    made.append((program, out.decode(), f"{program} at degree {degree}"))
                elif status not in (8, 9):  # a task is too large, or a number leaves its range
                    print(f"certificates: no certificate of {program} at degree {degree}: {err.decode().strip()}")
                    comparison.differ += 1
        agree = sum([comparison.agree(*case) for case in made])
        altered = 0
        for k in range(int(count) if made else 0):
            program, text, name = draw.choice(made)
            altered += comparison.agree(program, alter(draw, k, text), f"{name}, altered for the {k + 1}th time,")
    print(f"certificates: {agree} agree, {altered} altered agree, {comparison.differ} differ")
    return 1 if comparison.differ or not made else 0


if __name__ == "__main__":
    sys.exit(main(sys.argv[1], sys.argv[2], sys.argv[3:]))
