#!/usr/bin/env python3
"""Tells how many wrong bodies the contracts of the program's crates refuse, by the kit's own `rt plant`.

    tools/plant.py [--most N] [--minutes N] [--at-once N] [--survivors FILE] [CRATE]...

`rt plant` writes wrong bodies under each public function's signature and clauses, always the same ones, and has the prover try
them: some give up, others call the function with another argument, change what it gives, or do it twice. Without names it tries
each crate `r9_*`. For each crate it prints one row of a table: how many functions with clauses got a wrong body, and of how many
wrong bodies each outcome came: `refused`, if a clause was not proved; `same`, if the contract shows that the function answers the
same, so that nothing is wrong with the body; `survived`, if the contract lets it through; `other`, if the prover could not judge it.
The last row has the sums, and the share of `refused` and `same` among those that were judged. With --survivors each line of
`rt plant` that names one that survived goes to a file. It is outside the gate, and changes nothing; a crate is checked first, so it
takes minutes a crate. Status 1 tells that a crate could not be tried, 2 that a word is wrong.
"""

import argparse
import os
import re
import subprocess
import sys
from concurrent.futures import ThreadPoolExecutor
from dataclasses import dataclass, field

ROOT = os.path.dirname(os.path.dirname(os.path.abspath(__file__)))
MOST, MINUTES = 400, 10


@dataclass
class Score:
    """What became of the wrong bodies of one crate."""

    crate: str
    functions: int = 0
    refused: int = 0
    same: int = 0
    survived: int = 0
    other: int = 0
    lines: list = field(default_factory=list)
    fault: str = ""

    @property
    def judged(self):
        return self.refused + self.same + self.survived


def counts_in(text):
    """The numbers of the last line of `rt plant`, by their words."""
    last = text.strip().split("\n")[-1] if text.strip() else ""
    return {word: int(number) for word, number in re.findall(r"([\w-]+)=(\d+)", last)}


def score_of(crate, text, status):
    """The score that the output of `rt plant` tells."""
    counts = counts_in(text)
    if status or "refused" not in counts:
        return Score(crate, fault=(text.strip().split("\n") or [""])[-1][:200])
    survivors = [line for line in text.split("\n") if re.match(r"\s*proves\b", line)]
    return Score(
        crate,
        functions=counts.get("planted-in", counts.get("functions", 0)),
        refused=counts["refused"],
        same=counts.get("same", 0),
        survived=counts.get("proves", 0),
        other=sum(counts.get(word, 0) for word in ("elsewhere", "not-judged", "not-source", "not-run")),
        lines=survivors,
    )


def tried(crate, most, minutes):
    """Runs `rt plant` in a crate."""
    words = ["rt", "plant", "--all", "--max", str(most), "--minutes", str(minutes), "--jobs", "1"]
    ran = subprocess.run(words, cwd=f"{ROOT}/crates/{crate}", capture_output=True, text=True, errors="replace")
    return score_of(crate, ran.stdout, ran.returncode)


def row(score):
    """A row of the table."""
    share = f"{100 * (score.refused + score.same) / score.judged:.1f}" if score.judged else ""
    cells = [score.crate, score.functions, score.judged, score.refused, score.same, score.survived, score.other, share]
    return "| " + " | ".join(str(cell) for cell in cells) + " |"


def total(scores):
    """The sum of some scores."""
    every = Score("all")
    for score in scores:
        for name in ("functions", "refused", "same", "survived", "other"):
            setattr(every, name, getattr(every, name) + getattr(score, name))
    return every


def main():
    words = argparse.ArgumentParser(description="How many wrong bodies the contracts refuse.")
    words.add_argument("crates", nargs="*", metavar="CRATE", help="a crate; without any, each crate r9_*")
    words.add_argument("--most", type=int, default=MOST, help=f"wrong bodies a crate at most, {MOST} if left out")
    words.add_argument("--minutes", type=int, default=MINUTES, help=f"minutes a crate at most, {MINUTES} if left out")
    words.add_argument("--at-once", type=int, default=1, help="crates side by side")
    words.add_argument("--survivors", metavar="FILE", help="where the lines of those that survived go")
    given = words.parse_args()
    crates = given.crates or sorted(it for it in os.listdir(f"{ROOT}/crates") if it.startswith("r9_"))
    lost = [it for it in crates if not os.path.isdir(f"{ROOT}/crates/{it}")]
    if lost:
        words.error(f"there is no crate {lost[0]}: `ls crates` names them")
    print("| Crate | Functions | Judged | Refused | Same | Survived | Other | Refused or same, of 100 |\n|---|---|---|---|---|---|---|---|", flush=True)
    scores = []
    with ThreadPoolExecutor(given.at_once) as pool:
        for score in pool.map(lambda it: tried(it, given.most, given.minutes), crates):
            print(f"| {score.crate} | not tried: {score.fault} | | | | | | |" if score.fault else row(score), flush=True)
            scores.append(score)
    print(row(total(it for it in scores if not it.fault)))
    if given.survivors:
        with open(given.survivors, "w", encoding="utf-8") as file:
            file.writelines(f"{score.crate}: {line}\n" for score in scores for line in score.lines)
    return 1 if any(score.fault for score in scores) else 0


if __name__ == "__main__":
    sys.exit(main())
