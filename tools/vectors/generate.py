#!/usr/bin/env python3
"""generate: turns outside vectors into what the programs store_vectors and operation_vectors read and must print.

usage: tools/vectors/generate.py VECTORS..      (VECTORS: base.txt.gz, then a file for each request of document 02; their README gives the form of a line)

Lines that a request answers otherwise are left out (withdrawn.txt beside this file); tests/vectors holds that list to both kernels.

store_vectors takes the lines of store, retrieve, files and free (free space). Below crates/store_vectors:
  data/vectors   for each vector a letter (s, r, f, u), then disc, name, data and output as lent, each as its length (two bytes, low byte first) and its bytes
  stdout         for each vector its letter, the number, and checksums of disc and output after the call
operation_vectors takes all others. Below crates/operation_vectors:
  data/vectors   for each vector a letter, two numbers of four bytes (ID or slot; clock or share), then name, disc, area and output as lent, each as its length in two
                 bytes and what differs from the vector before (a name from zeros): how many bytes stay, how many are new, these
  stdout         for each vector its letter, the number, and checksums of disc, area and output after the call
It knows nothing of what the operations do: number and changes are those of the vector.
"""
import os
import sys

if "--help" in sys.argv[1:]:
    sys.exit(print(__doc__.strip()))

from standing import standing

CRATES = os.path.join(os.path.dirname(os.path.abspath(__file__)), "..", "..", "crates")
ON_DISC = {"store": "s", "retrieve": "r", "files": "f", "free": "u"}
ON_BOTH = {
    "format": "f", "boot": "b", "erase": "e", "run": "r", "suspend": "s", "resume": "c", "kill": "k", "list": "l", "turn": "t", "round": "o",
    "share": "h",
}
NAMED = ("erase", "run")
LONGEST = 4096


def unhex(word):
    return b"" if word == "-" else bytes.fromhex(word)


def part(data):
    return len(data).to_bytes(2, "little") + data


def changed(data, runs):
    after = bytearray(data)
    if runs != ".":
        for run in runs.split(","):
            offset, new = run.split(":")
            new = bytes.fromhex(new)
            after[int(offset) : int(offset) + len(new)] = new
    assert len(after) == len(data)
    return bytes(after)


def checksum(data):
    total = 1
    for byte in data:
        total = (total * 257 + byte) % 4294967291
    return total


class Kept:
    """A buffer of the reading program, which each vector changes in part."""

    def __init__(self):
        self.bytes = bytearray(LONGEST)

    def differences(self, data):
        """The runs that make the kept bytes these: how many stay, how many are new, the new ones. Three equal bytes end a run."""
        kept, runs, i, n = self.bytes, bytearray(), 0, len(data)
        while i < n:
            start = i
            while i < n and i - start < 255 and data[i] == kept[i]:
                i += 1
            first = i
            while i < n and i - first < 255 and data[i : i + 3] != kept[i : i + 3]:
                i += 1
            runs += bytes([first - start, i - first]) + data[first:i]
        self.bytes[:n] = data
        return n.to_bytes(2, "little") + bytes(runs)


def on_disc(words, arrow):
    disc, _, out, *args = (unhex(word) for word in words[1:arrow])
    name, data = (args + [b"", b""])[:2]
    number, new_disc, _, new_out = words[arrow + 1 :]
    letter = ON_DISC[words[0]]
    record = letter.encode() + part(disc) + part(name) + part(data) + part(out)
    after = [checksum(changed(disc, new_disc)), checksum(changed(out, new_out))]
    return record, "%s %s %08x %08x\n" % (letter, number, *after)


def on_both(words, arrow, kept):
    lent = [unhex(word) for word in words[1:4]]
    args = words[4:arrow]
    name = unhex(args[0]) if words[0] in NAMED else b""
    numbers = [] if words[0] in NAMED else [int(word) for word in args]
    if words[0] == "round":
        numbers = [0] + numbers
    numbers = (numbers + [0, 0])[:2]
    number, *runs = words[arrow + 1 :]
    letter = ON_BOTH[words[0]]
    record = letter.encode() + b"".join(n.to_bytes(4, "little") for n in numbers)
    record += b"".join(k.differences(data) for k, data in zip([Kept()] + kept, [name] + lent))
    after = [checksum(changed(data, run)) for data, run in zip(lent, runs)]
    return record, "%s %s %08x %08x %08x\n" % (letter, number, *after)


def write(crate, rows):
    with open(os.path.join(CRATES, crate, "data", "vectors"), "wb") as file:
        file.write(b"".join(record for record, _ in rows))
    with open(os.path.join(CRATES, crate, "stdout"), "w") as file:
        file.write("".join(line for _, line in rows))
    print(crate, len(rows), "vectors")


def main():
    disc, both, kept = [], [], [Kept(), Kept(), Kept()]
    for words in (line.split() for path in sys.argv[1:] for line in standing(path).values()):
        arrow = words.index("=>")
        if words[0] in ON_DISC:
            disc.append(on_disc(words, arrow))
        else:
            both.append(on_both(words, arrow, kept))
    write("store_vectors", disc)
    write("operation_vectors", both)


main()
