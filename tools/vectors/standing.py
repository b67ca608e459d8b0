"""The lines of outside vectors that still hold: withdrawn.txt names those that a request of document 02 answers otherwise, as "FILE LINE REASON"."""
import gzip
import os

WITHDRAWN = os.path.join(os.path.dirname(os.path.abspath(__file__)), "withdrawn.txt")


def standing(path):
    """The standing lines of a file, by their numbers."""
    name = os.path.basename(path)
    with open(WITHDRAWN) as file:
        withdrawn = {int(words[1]) for words in map(str.split, file) if words[0] == name}
    with gzip.open(path, "rt") as vectors:
        lines = {number: line.strip() for number, line in enumerate(vectors, 1)}
    assert withdrawn <= set(lines), "%s has no such line: %s" % (name, withdrawn - set(lines))
    print(name, len(lines), "lines,", len(withdrawn), "withdrawn")
    return {number: line for number, line in lines.items() if number not in withdrawn}
