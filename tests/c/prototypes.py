#!/usr/bin/env python3
"""Prints C declarations of all calls that the crate library exports, as its source has them, to be compared with the header by the compiler."""
import glob, re

NUMBERS = {"u8": "uint8_t", "u32": "uint32_t", "u64": "uint64_t"}
SIZES = dict(size for path in glob.glob("crates/*/src/*.rt") for size in re.findall(r"pub const (\w+_SIZE): usize = (\d+);", open(path).read()))
CALL = re.compile(r'#\[unsafe\(no_mangle\)\]\npub extern "C" fn (\w+)\((.*?)\) -> (u32)\n', re.S)


def parameter(name, kind):
    """One parameter of a call as C has it: a slice is a pointer and a length, an array of numbers is an array."""
    lent = re.fullmatch(r"&(mut )?\[(u\d+)(?:; (\w+))?\]", kind)
    if lent:
        element = ("" if lent[1] else "const ") + NUMBERS[lent[2]]
        return f"{element} {name}[{SIZES.get(lent[3], lent[3])}]" if lent[3] else f"{element} *{name}, size_t {name}_len"
    if kind.startswith("&mut "):
        return f"{NUMBERS[kind[5:]]} *{name}"
    return f"{NUMBERS[kind]} {name}"


print('#include "strigol.h"')
for name, inner, result in CALL.findall(open("crates/library/src/lib.rt").read()):
    pairs = [p.split(":", 1) for p in re.split(r",\s*(?=\w+:)", inner.strip().rstrip(","))]
    print(f"{NUMBERS[result]} {name}({', '.join(parameter(n.strip(), k.strip()) for n, k in pairs)});")
