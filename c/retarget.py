#!/usr/bin/env python3
"""Writes the library's LLVM module, as c/build.sh keeps it, for another platform: c/retarget.py MODULE.ll PLATFORM [CALL..] > OTHER.ll

PLATFORM is wasm32, WebAssembly with addresses of 32 bits, or windows, for x86-64. What names x86-64 Linux changes: the triple, the layout
of data, and the processor and the stack probes in the functions' attributes. The heap's three functions are added, from c/heap.ll and the
file for the bits of an address. With 32 bits, numbers of 64 that hold an address stay so; what is read of memory as a pair with an address
is read in two parts, since LLVM would look for the second one elsewhere. Where calls are named, no other is exported, and the compiler drops
what only others need. It stops at anything that it doesn't know.
"""
import pathlib
import re
import sys
from typing import List, Match, NamedTuple, NoReturn

HERE = pathlib.Path(__file__).resolve().parent
FEATURES = "+bulk-memory,+bulk-memory-opt,+multivalue,+mutable-globals,+nontrapping-fptoint,+sign-ext,+simd128"


class Platform(NamedTuple):
    """A platform's triple, its layout of data, its functions' attributes, and the bits of an address."""

    triple: str
    layout: str
    attributes: str
    bits: int


# The layouts are those that the kit's clang gives. With unwind tables, `uwtable`, debuggers on Windows see who called. The heap is
# malloc, realloc and free alone, so none becomes calloc.
PLATFORMS = {
    "wasm32": Platform("wasm32-unknown-unknown", "e-m:e-p:32:32-p10:8:8-p20:8:8-i64:64-i128:128-n32:64-S128-ni:1:10:20",
                       f'"target-cpu"="lime1" "target-features"="{FEATURES}"', 32),
    "windows": Platform("x86_64-w64-windows-gnu", "e-m:w-p270:32:32-p271:32:32-p272:64:64-i64:64-i128:128-f80:128-n8:16:32:64-S128",
                        'uwtable "no-builtin-calloc" "target-cpu"="x86-64-v2"', 64),
}
OF_X86 = '"probe-stack"="inline-asm" "stack-probe-size"="3072" "target-cpu"="x86-64-v2"'
HEAP = {"rattle_alloc", "rattle_realloc", "rattle_dealloc"}
HEAP_LINE = re.compile(r"^declare [^@\n]*@rattle_(?:alloc|realloc|dealloc)\(.*\n", re.M)
OF_ONE_PLATFORM = re.compile(r'llvm\.x86\.\S*|^module asm .*|\basm (?:sideeffect )?"[^"]+"|thread_local|\bcomdat\b|section "[^"]*"', re.M)
# The bytes of each type where addresses have 64 bits, and so its alignment.
BYTES = {"i1": 1, "i8": 1, "i16": 2, "i32": 4, "i64": 8, "i128": 16, "ptr": 8}
PAIR = re.compile(r"^  (%\S+) = load \{ (\w+), (\w+) \}, ptr (%\S+), align \d+$", re.M)
SEVERAL = re.compile(r"^.*(?:load|store) ([{\[][^}\]]*[}\]]).*$", re.M)


def stop(text: str) -> NoReturn:
    sys.exit(f"c/retarget.py: {text}")


def replaced(pattern: str, line: str, text: str) -> str:
    """A text with another line in the place of the one that there must be."""
    text, count = re.subn(pattern, lambda _: line, text, flags=re.M)
    if count != 1:
        stop(f"{count} lines like {pattern}, where there must be one")
    return text


def in_parts(found: Match[str]) -> str:
    """A pair with an address, read in two parts at the places where it lies; any other as it is."""
    name, first, second, place = found.groups()
    if "ptr" not in (first, second):
        return found[0]
    if first not in BYTES or second not in BYTES:
        stop(f"a pair of other types: {found[0].strip()}")
    own = f"%parts.{name[1:]}"
    return "\n".join((
        f"  {own}.0 = load {first}, ptr {place}, align {BYTES[first]}",
        f"  {own}.at = getelementptr i8, ptr {place}, i64 {max(BYTES[first], BYTES[second])}",
        f"  {own}.1 = load {second}, ptr {own}.at, align {BYTES[second]}",
        f"  {own}.half = insertvalue {{ {first}, {second} }} poison, {first} {own}.0, 0",
        f"  {name} = insertvalue {{ {first}, {second} }} {own}.half, {second} {own}.1, 1"))


def with_narrow_addresses(text: str) -> str:
    """A module whose addresses have 32 bits, and lie in 8 bytes as before."""
    text = PAIR.sub(in_parts, text)
    left = [found[0].strip() for found in SEVERAL.finditer(text) if "ptr" in found[1]]
    if left:
        stop(f"another way to read or write several values at once: {left[0]}")
    return re.sub(r"= ptrtoaddr (ptr \S+) to i64$", r"= ptrtoint \1 to i64", text, flags=re.M)


def refuse_unknown(text: str) -> None:
    """Stops at what isn't the same on all platforms."""
    left = sorted({found[0] for found in OF_ONE_PLATFORM.finditer(text)})
    if left:
        stop(f"of x86-64 alone: {', '.join(left[:5])}")
    foreign = {name for name in re.findall(r'^declare [^@\n]*@"?([^"(]*)', text, re.M) if not name.startswith("llvm.")}
    if foreign - HEAP:
        stop(f"calls of C that aren't the heap's: {', '.join(sorted(foreign - HEAP))}")


def heap_of(platform: Platform) -> str:
    """The heap's functions."""
    files = HERE / "heap.ll", HERE / f"heap{platform.bits}.ll"
    text = "\n".join(file.read_text(encoding="utf-8") for file in files)
    return text.replace(" nounwind {", f" nounwind {platform.attributes} {{")


def exporting(text: str, calls: List[str]) -> str:
    """A module that exports these calls alone."""
    for call in calls:
        text = replaced(rf"^define (?=[^@\n]*@{call}\()", "define export ", text)
    return re.sub(r"^define (?!internal)(export )?", lambda found: "define " if found[1] else "define internal ", text, flags=re.M)


def retargeted(text: str, platform: Platform, calls: List[str]) -> str:
    """The module for a platform, which exports these calls, or all."""
    if calls:
        text = exporting(text, calls)
    text = replaced(r"^target triple = .*", f'target triple = "{platform.triple}"', text)
    text = replaced(r"^target datalayout = .*", f'target datalayout = "{platform.layout}"', text)
    if OF_X86 not in text:
        stop("the functions' attributes aren't those of x86-64 Linux")
    text = text.replace(OF_X86, platform.attributes)
    refuse_unknown(text)
    text = HEAP_LINE.sub("", text)
    return (with_narrow_addresses(text) if platform.bits == 32 else text) + "\n" + heap_of(platform)


if __name__ == "__main__":
    if len(sys.argv) < 3 or sys.argv[2] not in PLATFORMS:
        stop(f"a module is to be named, and a platform: {', '.join(PLATFORMS)}")
    sys.stdout.write(retargeted(pathlib.Path(sys.argv[1]).read_text(encoding="utf-8"), PLATFORMS[sys.argv[2]],
                                sys.argv[3:]))
