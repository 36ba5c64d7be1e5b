"""Reads the text files of the eraser."""
from pathlib import Path

FOLDER = Path(__file__).resolve().parent


def entries(name):
    """Returns the entries of a file of this folder: the rest of each line `=== HEAD`, and the lines after it.

    A line that begins with `##` is a comment.
    """
    lines = (FOLDER / name).read_text(encoding="utf-8").splitlines()
    text = "\n".join(line for line in lines if not line.startswith("##"))
    return [entry.partition("\n")[::2] for entry in f"\n{text}\n".split("\n=== ")[1:]]
