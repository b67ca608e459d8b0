#!/usr/bin/env python3
"""Does anything in the kernel's LLVM module depend on the size of a pointer, or ask for floats other than binary32 and binary64?

lint.py KERNEL.ll    says what it found; status 1 if something does

Wholes keep the bits that they have in Rattle (usize has 64 on every machine). So what could depend on it is an address made of a number, a
number made of an address, data laid out by the compiler, a step over anything but bytes, an alignment that is left open, a call by
address, or a function of another language. Of each there must be none. (Pairs that a function returns lie in no memory.)
"""

import re
import sys

INSTRUCTIONS = (
    "ptrtoint ptrtoaddr inttoptr addrspacecast asm indirectbr invoke callbr atomicrmw cmpxchg fence va_arg blockaddress landingpad "
    "extractelement insertelement shufflevector"
).split()
# Of an address the kernel's functions take and return only what lies behind it, in bytes.
DECLARED = {
    "llvm.memcpy.p0.p0.i64",
    "llvm.memmove.p0.p0.i64",
    "llvm.memset.p0.i64",
    "llvm.trap",
    # a bar to rearranging floats, and no more
    "llvm.arithmetic.fence.f32",
    "llvm.arithmetic.fence.f64",
}
LOCAL = re.compile(r"ptr|i1|i8|i16|i32|i64|float|double|\[\d+ x i8\]")
# texts, which are bytes that nothing writes
TEXT = re.compile(r"@\S+ = private unnamed_addr constant \[\d+ x i8\] (c\"|zeroinitializer)")
FAST = re.compile(r"\b(fast|contract|reassoc|nnan|ninf|nsz|arcp|afn)\b")

SIZES = {"i1": 1, "i8": 1, "i16": 2, "i32": 4, "i64": 8, "float": 4, "double": 8}


def places(fields, pointer):
    """Where each field begins, at its own alignment (tools/ports/cross asks of a machine that the longest's is 8)."""
    at = 0
    for it in fields:
        size = pointer if it == "ptr" else SIZES[it]
        at += -at % size
        yield at
        at += size


def lies_alike(kind):
    """Is a value of this type at the same bytes whether a pointer has 8 of them or 4?"""
    fields = [it.strip() for it in kind.strip("{} ").split(",")]
    if any(it != "ptr" and it not in SIZES for it in fields):
        return False
    return list(places(fields, 8)) == list(places(fields, 4))


def found_in(text):
    code = [line for line in text.splitlines() if line.startswith("  ")]
    # Names stand in quotes, so they cannot be taken for a word.
    bare = [re.sub(r'"[^"]*"', "name", line) for line in code]
    for line in bare:
        said = line.strip()
        words = re.sub(r"^%\S+ = ", "", said).split(" ")
        name = words[1] if words[0] in ("tail", "musttail", "notail") else words[0]
        if name in INSTRUCTIONS:
            yield name
        if " asm " in said:
            yield "asm"
        if name in ("fadd", "fsub", "fmul", "fdiv", "frem", "fneg", "fcmp", "select", "phi", "call") and FAST.search(said.split("(")[0]):
            yield f"a fast float: {said}"
        if name == "getelementptr":
            step = re.match(r"getelementptr (?:inbounds |nusw |nuw )*([^,]+),", " ".join(words))
            if not step or step.group(1) != "i8":
                yield f"a step over other things than bytes: {said}"
        if name == "alloca":
            kind = re.match(r"alloca ([^,]+), align \d+", " ".join(words))
            if not kind or not LOCAL.fullmatch(kind.group(1)):
                yield f"a local that is no number, no address and no bytes, or has no alignment: {said}"
        if name in ("load", "store"):
            if ", align " not in said:
                yield f"an access without its alignment: {said}"
            kind = re.match(r"(?:load|store) (\{[^{}]*\}|[^ ,]+)", " ".join(words))
            if not kind or not lies_alike(kind.group(1)):
                yield f"an access that lies otherwise where pointers are shorter: {said}"
        if name == "call" and not re.search(r"call [^%]*?@", said.split("(")[0] + "("):
            yield f"a call by address: {said}"
        if re.search(r"\b(half|x86_fp80|fp128|ppc_fp128|bfloat)\b", said):
            yield f"a float of another size: {said}"
    for line in text.splitlines():
        if line.startswith("@") and not TEXT.match(line):
            yield f"a global: {line[:60]}"
        if re.match(r"%\S+ = type", line):
            yield f"a type laid out by the compiler: {line[:60]}"
        declared = re.match(r"declare [^@]*@([^\s(]+)\(", line)
        if declared and declared.group(1) not in DECLARED:
            yield f"a function from outside: {declared.group(1)}"


def main():
    if "--help" in sys.argv:
        print(__doc__.strip())
        return False
    with open(sys.argv[1], encoding="utf-8") as it:
        text = it.read()
    functions = len(re.findall(r"(?m)^define ", text))
    exported = len(re.findall(r"(?m)^define (?!internal )", text))
    found = sorted(set(found_in(text)))
    for it in found:
        print(f"lint: {it}")
    print(f"lint: {functions} functions, {exported} of them for C: " + (f"{len(found)} findings" if found else "nothing depends on the size of a pointer"))
    return bool(found) or not exported


sys.exit(main())
