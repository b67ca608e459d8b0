# The kernel's sources as the text checks read them: tools/length/check, tools/files/check.
import re
import sys
from pathlib import Path

ROOT = Path(__file__).resolve().parents[2]
# Programs that the gate runs: they make discs and areas of their own.
PROGRAMS = {
    "store_cases", "variable_cases", "kernel_cases", "guide_programs", "bench",
    "float_vectors", "number_vectors", "store_vectors", "operation_vectors",
}
WORD = re.compile(r"[\w'-]+")


def without_comments(path):
    mark = "//" if path.suffix == ".rt" else "--"
    lines = (line.split(mark)[0] for line in path.read_text().splitlines())
    return re.sub(r"(?<=\d)_(?=\d)", "", "\n".join(lines))


# Whether a clause `unfolding`, which goes on in lines that stand further in, or an attribute
# `tactic(.., unfolding(..))` names one of the words.
def opens(text, words):
    clause = None
    if any(words & set(WORD.findall(named)) for named in re.findall(r"\bunfolding\s*\(([^()]*)\)", text)):
        return True
    for line in text.splitlines():
        indent = len(line) - len(line.lstrip())
        if line.split()[:1] == ["unfolding"]:
            clause = indent
        elif clause is not None and indent <= clause:
            clause = None
        if clause is not None and words & set(WORD.findall(line)):
            return True
    return False


def kernel_files(but=()):
    for part in ("specs", "proofs", "src"):
        for path in sorted((ROOT / "crates").glob(f"*/{part}/**/*")):
            crate = path.relative_to(ROOT).parts[1]
            if path.suffix in (".antt", ".rt") and crate not in PROGRAMS and crate not in but:
                yield path


# A function's proof is one or two files, of which either may open a definition: they go by their folder.
def place(path):
    own = path.name in ("Answers.antt", "Invariants.antt", "Proof.antt")
    return str((path.parent if own else path).relative_to(ROOT))


# What differs from what is listed, a line each; a file that is listed and has no such line any more is a fault too.
def differs(found, listed, fault):
    return [f"{name}: {fault}" for name in sorted(found - listed)] + [
        f"{name}: listed, and not so" for name in sorted(listed - found)
    ]


def report(faults):
    print("\n".join(faults), end="\n" if faults else "")
    sys.exit(1 if faults else 0)
