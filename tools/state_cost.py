"""Instructions that the check of a lent state takes, by callgrind, on states that use every cell of the largest board."""
import os
import subprocess

from callgrind import inside, said
from stack_used import ROOT

RUST = os.path.join(ROOT, "rust")
PROGRAM = os.path.join(RUST, "target", "release", "examples", "state_once")
MOST_A_WORD = 60


class Cost:
    """A state with its cells and words, and what its check takes: a call with it, less one that is refused at its first word."""

    def __init__(self, described, folder):
        cells, words, self.name = described.split(maxsplit=2)
        self.cells, self.words = int(cells), int(words)
        self.count = call(folder, self.name) - call(folder, self.name, "refused")


def call(folder, *words):
    """Instructions of one call of the library that ends behind the check of its state."""
    return inside("counted_line", [PROGRAM, *words], folder)[1]["counted_line"]


def costs(folder):
    subprocess.run(["cargo", "build", "--release", "--offline", "--example", "state_once"], cwd=RUST, check=True)
    return [Cost(described, folder) for described in said([PROGRAM]).splitlines()]
