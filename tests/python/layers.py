"""The imports of the package, also those within functions: python3 tests/python/layers.py draws its layers.

A folder may import itself and those that `BELOW` names, and no import leads back to where it came from."""
import ast
import os
import pathlib
import sys

TESTS = pathlib.Path(__file__).resolve().parent
PACKAGE = TESTS.parents[1] / "python" / "nushbaret"
# What each folder may import in addition to itself, from the lowest on.
BELOW = {
    "costs": (),
    "lap": ("costs",),
    "rows": ("costs", "lap"),
    "counts": ("costs", "lap", "rows"),
    "roster": ("costs", "lap", "rows", "counts"),
    "roster.rules": ("costs", "lap", "rows", "counts", "roster"),
    "roster.output": ("costs", "lap", "rows", "counts", "roster", "roster.rules"),
    "api": ("costs", "lap", "rows", "counts", "roster", "roster.rules", "roster.output"),
    "beyond": ("costs", "lap", "api"),
}
# The modules of roster/ that hand on to its inner folders, whose modules import none of them.
FRONTS = ("roster.command",)
# What begins: it loads any module when this is needed, and no module imports it.
ENTRIES = ("", "__main__")


def name_of(path, package=PACKAGE):
    """The name of a module within the package, such as lap.levels; a folder's own file has the folder's."""
    parts = path.relative_to(package).with_suffix("").parts
    return ".".join(parts[:-1] if parts[-1] == "__init__" else parts)


def modules(package=PACKAGE):
    """The path of each module by its name."""
    return {name_of(path, package): path for path in sorted(package.rglob("*.py"))}


def imported(name, path, known):
    """The modules that one imports, wherever it does; a name that is no module stands for the one that has it."""
    own = name.split(".") if path.name == "__init__.py" else name.split(".")[:-1]
    for node in ast.walk(ast.parse(path.read_text(encoding="utf-8"))):
        if isinstance(node, ast.Import):
            yield from (alias.name[10:] for alias in node.names if alias.name.startswith("nushbaret."))
        if not isinstance(node, ast.ImportFrom) or not node.level and (node.module or "").split(".")[0] != "nushbaret":
            continue
        base = own[:len(own) - node.level + 1] if node.level else []
        base = base + (node.module or "").split(".")[0 if node.level else 1:]
        base = [part for part in base if part]
        for alias in node.names:
            inner = ".".join([*base, alias.name])
            yield inner if inner in known else ".".join(base)


def edges(package=PACKAGE):
    """What each module imports."""
    known = modules(package)
    return {name: sorted(set(imported(name, path, known))) for name, path in known.items()}


def folder_of(name):
    """The folder of a module: roster.output of roster.output.page."""
    return name if name in BELOW else name.rpartition(".")[0]


def faults(graph):
    """The imports that lead up or leave the package's order."""
    found = []
    for name, others in graph.items():
        if name in ENTRIES:
            continue
        for other in others:
            if not is_allowed(name, other):
                found.append(f"{name} imports {other}")
    return found


def is_allowed(name, other):
    """Whether a module may import another one."""
    folder, its = folder_of(name), folder_of(other)
    if other in FRONTS:
        return name in FRONTS
    if name in FRONTS and its in ("roster.rules", "roster.output"):
        return True
    return other not in ENTRIES and (its == folder or its in BELOW.get(folder, ()))


def beyond_their_folder(tests=TESTS):
    """The modules that each file of the tests imports of another folder than its own."""
    known = modules()
    for path in sorted(tests.rglob("*.py")):
        name = name_of(path, tests)
        own = name.rpartition(".")[0].split(".")[0]
        names = sorted({other for other in imported(name, path, known) if own != other.split(".")[0]})
        if names:
            yield name, names


def layers(graph):
    """The layer of each module, from 0 on: one more than that of the highest module that it imports. Those that no
    order holds, since they import each other, have none."""
    found = {}
    while True:
        more = {name: 1 + max((found[other] for other in others), default=-1)
                for name, others in graph.items() if name not in found and all(other in found for other in others)}
        if not more:
            return found
        found.update(more)


def cycle(graph):
    """The modules of one cycle of imports, if there is any."""
    found = layers(graph)
    name = next((name for name in graph if name not in found), None)
    way = []
    while name is not None and name not in way:
        way.append(name)
        name = next(other for other in graph[name] if other not in found)
    return way[way.index(name):] if way else []


def drawn(graph):
    """The folders from the highest to the lowest, each with its modules by layers and with what it imports of
    others."""
    found = layers(graph)
    for folder in reversed(BELOW):
        own = [name for name in graph if folder_of(name) == folder and name not in BELOW]
        counts = {other: sum(folder_of(end) == other for name in own for end in graph[name]) for other in BELOW
                  if other != folder}
        below = ", ".join(f"{other} {count}" for other, count in counts.items() if count)
        yield f"{folder.replace('.', '/')}/  imports {below or 'nothing'}"
        for layer in sorted({found[name] for name in own}, reverse=True):
            names = [name[len(folder) + 1:] for name in own if found[name] == layer]
            yield f"    {layer:3}  {' '.join(names)}"


if __name__ == "__main__":
    try:
        print("\n".join(drawn(edges())))
    except BrokenPipeError:
        os.dup2(os.open(os.devnull, os.O_WRONLY), sys.stdout.fileno())
