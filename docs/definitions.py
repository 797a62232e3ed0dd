#!/usr/bin/env python3
"""Prints a definition that a contract names, and those that it cites: docs/definitions.py [--deep] NAME [NAME ..].

A definition stands in crates/*/specs with a comment above it. Each definition that it cites follows with its comment;
with --deep its text too, and so on down to numbers and lists. Status 1: there is no definition of that name.
"""
import glob
import os
import re
import sys
from typing import Dict, Iterator, List, NamedTuple, Optional, Tuple

TOP = os.path.dirname(os.path.dirname(os.path.abspath(__file__)))
DECLARED = re.compile(r"(?:abbrev |fn |law )?pub (?!mod )(?:record |data |abbrev )?(?P<name>[^\s:(]+)")
USE = re.compile(r"use Rattle\.(\w+)\.specs\.([\w.]+)\.\{([^}]*)\}")
# What parts names within a definition.
PARTS = re.compile(r"[\s(){}\[\],.;]+")


class Definition(NamedTuple):
    name: str
    path: str
    comment: str
    text: str


class Specs(NamedTuple):
    """One file: what it defines, and the file of each name that it takes from another one."""
    definitions: Dict[str, Definition]
    imported: Dict[str, str]


def paragraphs(lines: List[str]) -> Iterator[List[str]]:
    held: List[str] = []
    for line in [*lines, ""]:
        if line.strip():
            held.append(line)
        elif held:
            yield held
            held = []


def defined(path: str, lines: List[str]) -> Dict[str, Definition]:
    """Definitions by name. What follows a comment without one of its own shares it."""
    found: Dict[str, Definition] = {}
    comment = ""
    for part in paragraphs(lines):
        above = [line[2:].strip() for line in part if line.startswith("--")]
        comment = " ".join(above) or comment
        for line in part:
            declared = DECLARED.match(line)
            if declared:
                code = "\n".join(line for line in part if not line.startswith("--"))
                found[declared["name"]] = Definition(declared["name"], path, comment, code)
    return found


def imports(text: str) -> Dict[str, str]:
    found = {}
    for crate, module, names in USE.findall(text):
        path = f"crates/{crate}/specs/{module.replace('.', '/')}.antt"
        found.update({name.strip(): path for name in names.split(",") if os.path.exists(os.path.join(TOP, path))})
    return found


def read(path: str) -> Specs:
    with open(os.path.join(TOP, path), encoding="utf-8") as file:
        text = file.read()
    return Specs(defined(path, text.splitlines()), imports(text))


def all_specs() -> Dict[str, Specs]:
    paths = glob.glob(os.path.join(TOP, "crates/*/specs/**/*.antt"), recursive=True)
    return {name: read(name) for name in sorted(os.path.relpath(path, TOP) for path in paths)}


def cited(definition: Definition, specs: Dict[str, Specs]) -> List[Definition]:
    """The house's definitions that the text names, in its order."""
    here = specs[definition.path]
    found = []
    for word in dict.fromkeys(PARTS.split(definition.text)):
        path: Optional[str] = definition.path if word in here.definitions else here.imported.get(word)
        other = specs[path].definitions.get(word) if path in specs else None
        if other and other != definition:
            found.append(other)
    return found


def shown(definition: Definition) -> str:
    return f"{definition.path}\n-- {definition.comment}\n{definition.text}\n"


def with_cited(begin: List[Definition], specs: Dict[str, Specs]) -> Iterator[Tuple[Definition, List[Definition]]]:
    """Each definition once, those cited after those that cite them."""
    waiting, seen = list(begin), set()
    while waiting:
        definition = waiting.pop(0)
        if definition not in seen:
            seen.add(definition)
            names = cited(definition, specs)
            yield definition, names
            waiting += names


def main(words: List[str]) -> int:
    names = [word for word in words if word != "--deep"]
    specs = all_specs()
    for name in names:
        found = [held.definitions[name] for held in specs.values() if name in held.definitions]
        if not found:
            print(f"docs/definitions.py: no definition is named {name}", file=sys.stderr)
            return 1
        if "--deep" in words:
            print("\n".join(shown(definition) for definition, _ in with_cited(found, specs)))
            continue
        for definition in found:
            print(shown(definition))
            for other in cited(definition, specs):
                print(f"    {other.name}: {other.comment} ({other.path})")
    return 0 if names else 2


if __name__ == "__main__":
    sys.exit(main(sys.argv[1:]))
