#!/usr/bin/env python3
"""Writes crate machine_try: for each outside vector, that the definition `answer` (or boot_answer, format_answer) gives what the vector says.

usage: generate.py [--wrong STEP] VECTORS.gz REPOSITORY [FROM TO [PER_FILE]]    vectors FROM up to (not with) TO, counted from 1; those withdrawn (tools/vectors/withdrawn.txt) left out
Then `rt check` in REPOSITORY/crates/machine_try (it puts the crate into crates.txt).
--wrong STEP: every STEP-th vector with one thing of its answer made wrong in turn (number, a byte of disc, area, output), stated to disagree: shows that the test can fail.
"""
import os, re, shutil, sys

if "--help" in sys.argv[1:]:
    sys.exit(print(__doc__.strip()))

sys.path.insert(0, os.path.join(os.path.dirname(os.path.abspath(__file__)), "..", "vectors"))
from standing import standing

wrong = 0
if sys.argv[1] == "--wrong":
    wrong = int(sys.argv[2])
    del sys.argv[1:3]
vectors, repo = sys.argv[1], sys.argv[2]
first = int(sys.argv[3]) if len(sys.argv) > 3 else 1
last = int(sys.argv[4]) if len(sys.argv) > 4 else 10 ** 9
per_file = int(sys.argv[5]) if len(sys.argv) > 5 else 50

CRATES = "buffer decimal place integer root float number operator scaling disc store variable machine".split()
SKIP = set("Trace Observation Single Suppositions Isolation Refusals Ending NoPlace Demands Fields Tests AtPc Changed Faults Reaching Done LeftAlone DiscLengths Waiting NewFile Rows Meaning".split())
LOGIC = {"lib.Ieee": "span climb size odd units round neg sum add sub mul div lt eq le ne of_int whole fits is_nan of_fields of_bits nan_bits to_bits to_unsigned to_signed in_unsigned in_signed in_float",
         "lib.IntN": "one pow",
         "lib.Count": "count_trailing_zeros count_leading_zeros"}


def opened():
    """every definition that is shut, under a name of its own"""
    uses, names = [], []
    for crate in CRATES:
        folder = f"{repo}/crates/{crate}/specs"
        for name in sorted(os.listdir(folder)):
            module = name[:-5]
            if crate in ("machine", "scaling") and module in SKIP:
                continue
            found = re.findall(r"^ *unfoldable pub (\S+) :", open(f"{folder}/{name}").read(), re.M)
            if found:
                uses.append("use Rattle.%s.specs.%s.{%s}" % (crate, module, ", ".join(f"{f} as {crate}-{module}-{f}" for f in found)))
                names += [f"{crate}-{module}-{f}" for f in found]
    for module, found in LOGIC.items():
        found = found.split()
        short = module[4:]
        uses.append("use %s.{%s}" % (module, ", ".join(f"{f} as {short}-{f}" for f in found)))
        names += [f"{short}-{f}" for f in found]
    return uses, names


TRY = """-- What a vector says, and whether the definition says the same.
use Prim.Native.Nat.{ℕ, zero, suc, ◌-◌, ◌/◌, ◌%◌, ◌≤◌, ◌<◌}
use mathlib.Core.Bool.{Bool, true, false, ◌&&◌}
use mathlib.Core.List.{List, [], ◌∷◌}
use mathlib.Core.Path.{◌≡◌}
use lib.Dec.{eqb}
use lib.IntN.{ℤ, pos, negsuc}
use Rattle.buffer.specs.Buffer.{overwrite}
use Rattle.buffer.specs.Lists.{same}
use Rattle.place.proofs.Place.{longer-fits-nowhere, longest-is}
use Rattle.place.specs.Place.{is_at, longest, lowest_fit}
use Rattle.place.specs.declared.Run.{Run}
use Rattle.machine.specs.Answer.{Answer, Buffers}

-- n bytes, the first one lowest in x
abbrev pub bytes : ℕ → ℕ → List ℕ
bytes zero x = []
bytes (suc n) x = x % 256 ∷ bytes n (x / 256)

abbrev pub lent : List ℕ → List ℕ → List ℕ → Buffers
lent d a o = record { disc = d; area = a; out = o }

-- runs laid over a buffer
abbrev pub laid : List (ℕ × List ℕ) → List ℕ → List ℕ
laid [] l = l
laid (r ∷ rs) l = laid rs (overwrite l r.0 r.1)

abbrev pub sameNumber : ℤ → ℤ → Bool
sameNumber (pos m) (pos n) = eqb m n
sameNumber (pos m) (negsuc n) = false
sameNumber (negsuc m) (pos n) = false
sameNumber (negsuc m) (negsuc n) = eqb m n

-- the answer that a vector names: its number, and what changed in the buffers lent
abbrev pub says : Answer → Buffers → ℤ → List (ℕ × List ℕ) → List (ℕ × List ℕ) → List (ℕ × List ℕ) → Bool
says a b n disc area out = sameNumber a.number n && (same a.disc (laid disc b.disc) && (same a.area (laid area b.area) && same a.out (laid out b.out)))

-- the longest free run takes more steps than one declaration may; by its law: a run of g has a place, one of g + 1 has none
pub free-run : (runs : List Run) (lo hi g : ℕ) → g ≤ hi - lo → (0 < g → is_at (lowest_fit runs lo hi g) ≡ true) → is_at (lowest_fit runs lo hi (suc g)) ≡ false → longest runs lo hi ≡ g
free-run runs lo hi g a e f = longest-is runs lo hi g a e (λ j x y. longer-fits-nowhere runs lo hi (suc g) j x f)
"""


def hexed(text):
    return b"" if text == "-" else bytes.fromhex(text)


def listed(b):
    if not b:
        return "[]"
    return "bytes %d 0x%s" % (len(b), b[::-1].hex())


def par(b):
    return "(%s)" % listed(b) if b else "[]"


def runs(text):
    if text == ".":
        return "[]"
    out = []
    for r in text.split(","):
        at, h = r.split(":")
        out.append("(%s, %s)" % (at, listed(bytes.fromhex(h))))
    return "(" + " ∷ ".join(out) + " ∷ [])"


def number(n):
    n = int(n)
    return "(pos %d)" % n if n >= 0 else "(negsuc %d)" % (-n - 1)


def spoiled(i, left, right):
    """the right side with one thing made wrong: the number, or one byte of a buffer"""
    kinds = [0] + [k for k in (1, 2, 3) if left[k] != "-"]
    k = kinds[(i // wrong) % len(kinds)]
    right = list(right)
    if k == 0:
        n = int(right[0])
        right[0] = str(n + 1 if n >= 0 else n - 1)
        return right
    b = bytearray(hexed(left[k]))
    for r in right[k].split(",") if right[k] != "." else []:
        at, h = r.split(":")
        h = bytes.fromhex(h)
        b[int(at):int(at) + len(h)] = h
    at = (i * 7919) % len(b)
    right[k] = ("" if right[k] == "." else right[k] + ",") + "%d:%02x" % (at, b[at] ^ 1)
    return right


def call(op, args, b):
    if op == "store":
        return "answer (other (store %s %s)) %s" % (par(hexed(args[0])), par(hexed(args[1])), b)
    if op in ("retrieve", "erase"):
        return "answer (other (%s %s)) %s" % (op, par(hexed(args[0])), b)
    if op == "run":
        return "answer (run %s) %s" % (par(hexed(args[0])), b)
    if op == "files" or op == "list":
        return "answer (other %s) %s" % (op, b)
    if op == "free":
        return "answer (other free_space) %s" % b
    if op in ("suspend", "resume", "kill"):
        return "answer (command %s %s) %s" % (op, args[0], b)
    if op == "turn":
        return "answer (turn %s %s) %s" % (args[0], args[1], b)
    if op == "share":
        return "answer (share %s %s) %s" % (args[0], args[1], b)
    if op == "round":
        return "answer (round %s) %s" % (args[0], b)
    if op == "boot":
        return "boot_answer " + b
    if op == "format":
        return "format_answer " + b
    raise SystemExit("unknown operation " + op)


def main():
    lines = standing(vectors)
    crate = f"{repo}/crates/machine_try"
    shutil.rmtree(crate, ignore_errors=True)
    os.makedirs(crate + "/src")
    os.makedirs(crate + "/proofs")
    open(crate + "/src/lib.rt", "w").write("// Nothing of its own: the files of proofs/ try the definition of crate machine on outside vectors.\n#![tactic(auto)]\n")
    open(crate + "/proofs/Try.antt", "w").write(TRY)
    uses, names = opened()
    head = "\n".join(
        ["use Prim.Native.Nat.{ℕ}", "use mathlib.Core.Bool.{true, false}", "use mathlib.Core.List.{List, [], ◌∷◌}", "use mathlib.Core.Path.{◌≡◌, ap, refl}", "use lib.IntN.{ℤ, pos, negsuc}",
         "use Rattle.machine.specs.Answer.{Buffers, answer, boot_answer, format_answer, turn, round, command, share, run, other, store, retrieve, erase, files, free_space, list}",
         "use Rattle.machine.specs.Operations.{suspend, resume, kill}", "use Rattle.machine_try.proofs.Try.{bytes, free-run, lent, says}", "use native.Mathlib.Nat.{not-suc-le-zero}", "use native.Mathlib.Omega.{arith}",
         "use Rattle.place.specs.Place.{longest}", "use Rattle.disc.specs.Directory.{taken}"] + uses) + "\n"
    mods = ["Try"]
    chosen = [i for i in sorted(lines) if first <= i < last]
    if wrong:
        chosen = [i for i in chosen if i % wrong == 0 and not lines[i].startswith("free")]
    for start in range(0, len(chosen), per_file):
        part = chosen[start:start + per_file]
        name = "V%04d" % part[0]
        mods.append(name)
        text = head
        shared = {}
        for i in part:
            left, right = lines[i].split(" => ")
            op, d, a, o, *args = left.split(" ")
            n, d2, a2, o2 = spoiled(i, left.split(" "), right.split(" ")) if wrong else right.split(" ")
            b = []
            for kind, h in (("disc", d), ("area", a), ("out", o)):
                key = h
                if key not in shared:
                    shared[key] = "b%d%s" % (i, kind)
                    text += "\nabbrev %s : List ℕ\n%s = %s\n" % (shared[key], shared[key], listed(hexed(h)))
                b.append(shared[key])
            text += "\nabbrev l%d : Buffers\nl%d = lent %s %s %s\n" % (i, i, *b)
            if op == "free" and int(n) >= 0:
                lazy = " ".join(x for x in names if x not in ("place-Place-longest", "place-Place-greatest"))
                has = "λ _. refl" if int(n) else "λ h. absurd (not-suc-le-zero h)"
                text += "\nf%d : longest (taken %s) 161 %d ≡ %s\nunfolding %s\nf%d = free-run (taken %s) 161 %d %s (omega arith) (%s) refl\n" % (
                    i, b[0], len(hexed(d)), n, lazy, i, b[0], len(hexed(d)), n, has)
                text += "\nv%d : says (answer (other free_space) l%d) l%d (pos %s) [] [] [] ≡ true\nunfolding %s\n" % (i, i, i, n, lazy)
                text += "v%d = ap (λ (n : ℕ). says (record { number = pos n; disc = l%d.disc; area = l%d.area; out = l%d.out }) l%d (pos %s) [] [] []) f%d\n" % (i, i, i, i, i, n, i)
                continue
            text += "\nv%d : says (%s) l%d %s %s %s %s ≡ %s\nunfolding %s\nv%d = refl\n" % (
                i, call(op, args, "l%d" % i), i, number(n), runs(d2), runs(a2), runs(o2), "false" if wrong else "true", " ".join(names), i)
        open(f"{crate}/proofs/{name}.antt", "w").write(text)
    open(crate + "/proofs/Lib.antt", "w").write("".join(f"pub mod {m}\n" for m in mods))
    table = open(repo + "/crates.txt").read()
    if "machine_try:" not in table:
        open(repo + "/crates.txt", "a").write("\n# scratch\nmachine_try: " + " ".join(CRATES) + "\n")


main()
