# The kit's command rt, read as a module, for the tools that try or measure one check.
import importlib.machinery
import importlib.util
import os
import subprocess
import sys
import tempfile
import time
from pathlib import Path

root = Path(__file__).resolve().parents[2]
home = Path(subprocess.run(["rt", "doc"], capture_output=True, text=True, check=True).stdout.strip()).parent
loader = importlib.machinery.SourceFileLoader("rt", str(home / "bin/rt"))
rt = importlib.util.module_from_spec(importlib.util.spec_from_loader("rt", loader))
loader.exec_module(rt)


# The crates of crates.txt, lowest first.
def crates():
    os.chdir(root)
    return rt.rtlib.crates_below(str(root))


# A crate, once those below it are built as libraries: what has not changed since a check is not proved again.
def crate_over_built(name):
    found = next((crate for crate in crates() if crate.name == name), None)
    if not found:
        sys.exit(f"crates.txt has no crate {name}")
    rt.share_work(False)
    found.out = sys.stderr
    for below in found.below():
        below.out = sys.stderr
        if below.build_rlib(["--jobs", "1"], anew=False):
            sys.exit(f"{below.name}, on which {name} rests, is not proved")
    return found


# Checks the crate from nothing, with one job and flags of rattle check, and returns the run.
def check_anew(crate, *flags):
    words = [rt.rtlib.RATTLE, "check", *crate.words(["--jobs", "1"], keeps=False), *flags]
    return subprocess.run(words, cwd=crate.folder, stdin=subprocess.DEVNULL, stdout=subprocess.PIPE, stderr=subprocess.STDOUT, text=True)


# What --stage-times wrote: seconds by stage, and the most memory held in MB.
def stage_times(file):
    seconds, peak = {}, 0
    for line in Path(file).read_text().splitlines():
        words = line.split()
        if words[0] == "stage":
            seconds[words[1]] = seconds.get(words[1], 0) + float(words[2])
        elif words[0] == "peak" and words[1].isdigit():
            peak = int(words[1]) // 1024
    return seconds, peak


# Tries a must-fail edit as rt does, over a folder of kept work: what it came to, what rt says of it, the check's output and its seconds.
def try_edit(crate, edit, kept):
    said, checked = [], rt.checked

    def logged(*given):
        ran = checked(*given)
        said.append(ran.stdout)
        return ran

    with tempfile.TemporaryDirectory() as room:
        over = f"{room}/kept" if Path(kept).is_dir() else None
        if over:
            rt.linked(str(kept), over)
        rt.checked, began = logged, time.time()
        try:
            kind, text = rt.must_fail(crate, str(edit), ["--jobs", "1"], over)
        finally:
            rt.checked = checked
        return kind, text, "".join(said[-1:]), time.time() - began
