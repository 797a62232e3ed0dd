#!/usr/bin/env python3
"""Whether c/retarget.py changes what it knows, and stops at anything else: tests/page/retarget.py"""
import pathlib
import subprocess
import sys
import tempfile

TOP = pathlib.Path(__file__).resolve().parents[2]
MODULE = '''target datalayout = "e-m:e-i64:64"
target triple = "x86_64-unknown-linux-gnu"

define i64 @first(ptr %place) #0 {
  %pair = load { i8, ptr }, ptr %place, align 8
  %numbers = load { i64, i64 }, ptr %place, align 8
  %second = extractvalue { i8, ptr } %pair, 1
  %address = ptrtoaddr ptr %second to i64
  ret i64 %address
}

declare { i64, i64 } @rattle_alloc(i64 noundef, i64 noundef) #0

declare void @llvm.trap() #0

attributes #0 = { "probe-stack"="inline-asm" "stack-probe-size"="3072" "target-cpu"="x86-64-v2" }
'''
# What the module has then, on each platform.
WANTED = {"wasm32": ('target triple = "wasm32-unknown-unknown"', "%parts.pair.1 = load ptr, ptr %parts.pair.at, align "
                     "8", "i64 8", "%numbers = load { i64, i64 }", "ptrtoint ptr %second to i64",
                     "define internal { i64, i64 } @rattle_alloc", "@malloc(i32)"),
          "windows": ('target triple = "x86_64-w64-windows-gnu"', "%pair = load { i8, ptr }, ptr %place, align 8",
                      'uwtable "no-builtin-calloc" "target-cpu"="x86-64-v2"', "ptrtoaddr ptr %second to i64",
                      "define internal { i64, i64 } @rattle_alloc", "@malloc(i64)")}
# What is changed in the module, and what is said of it; the last ones only where addresses have 32 bits.
REFUSED = (('declare void @llvm.trap() #0', 'declare i32 @getpid() #0', "calls of C that aren't the heap's: getpid"),
           ('declare void @llvm.trap() #0', 'declare void @llvm.x86.sse2.pause() #0',
            "of x86-64 alone: llvm.x86.sse2.pause"), ('declare void @llvm.trap() #0', '@own = internal thread_local '
                                                      'global i64 0', "of x86-64 alone: thread_local"),
           ('declare void @llvm.trap() #0', '@own = global i64 0, section ".init_array"',
            'of x86-64 alone: section ".init_array"'),
           ('declare void @llvm.trap() #0', 'module asm "nop"', 'of x86-64 alone: module asm "nop"'),
           ('ret i64 %address', 'call void asm sideeffect "pause", ""()\n  ret i64 %address',
            'of x86-64 alone: asm sideeffect "pause"'),
           ('"target-cpu"="x86-64-v2"', '"target-cpu"="x86-64-v3"', "the functions' attributes aren't those of x86-64 "
            "Linux"), ('target triple', '; target triple', "0 lines like ^target triple = .*, where there must be "
                       "one"),)
REFUSED_NARROW = (('{ i8, ptr }, ptr %place, align 8', '[2 x ptr], ptr %place, align 8', "another way to read or write "
                   "several values at once: "), ('load { i8, ptr }, ptr %place', 'load { float, ptr }, ptr %place',
                                                 "a pair of other types: "),)

CASES = (("wasm32", REFUSED + REFUSED_NARROW), ("windows", REFUSED))


def retargeted(text: str, platform: str, *calls: str) -> "subprocess.CompletedProcess[str]":
    with tempfile.NamedTemporaryFile("w", suffix=".ll") as file:
        file.write(text)
        file.flush()
        return subprocess.run([sys.executable, str(TOP / "c/retarget.py"), file.name, platform, *calls],
                              capture_output=True, text=True)


def lacking(platform: str) -> "list[str]":
    """What the module lacks on a platform."""
    done = retargeted(MODULE, platform)
    return [f"{platform}: the module lacks {wanted}: {done.stderr}" for wanted in WANTED[platform]
            if done.returncode != 0 or wanted not in done.stdout]


def faults() -> "list[str]":
    """What is wrong."""
    found = lacking("wasm32") + lacking("windows")
    for platform, old, new, text in [(platform, *one) for platform, ones in CASES for one in ones]:
        if MODULE.count(old) != 1:
            found.append(f"{old} isn't once in the module")
        done = retargeted(MODULE.replace(old, new), platform)
        if done.returncode != 1 or done.stdout or not done.stderr.startswith(f"c/retarget.py: {text}"):
            found.append(f"{platform}, {new}: {done.stderr or 'taken'}")
    if retargeted(MODULE, "vax").stderr != "c/retarget.py: a module is to be named, and a platform: wasm32, windows\n":
        found.append("another platform is taken")
    two = MODULE + "define i64 @other() #0 {\n  ret i64 0\n}\n"
    done = retargeted(two, "wasm32", "first")
    if "\ndefine i64 @first(" not in done.stdout or "\ndefine internal i64 @other(" not in done.stdout:
        found.append("another call than the named one is exported")
    if not retargeted(two, "wasm32", "third").stderr.startswith("c/retarget.py: 0 lines like "):
        found.append("a call that isn't there is taken")
    return found


if __name__ == "__main__":
    wrong = faults()
    print("\n".join(wrong) or f"page: a module retargeted, and {len(REFUSED + REFUSED_NARROW)} others refused")
    sys.exit(bool(wrong))
