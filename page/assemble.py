#!/usr/bin/env python3
"""Puts the page together: one file with the style, the scripts and the module in it.

    page/assemble.py MODULE.wasm > nushbaret.html

Each script is a module of this folder and all that it imports, in one function, so no two may use a name at the top.
The page's policy allows just these scripts and this style, by their sums, and no connection.
"""
import base64
import gzip
import hashlib
import json
import pathlib
import re
import sys
from typing import Dict, List, NoReturn

HERE = pathlib.Path(__file__).resolve().parent
TOP = HERE.parent
sys.path.insert(0, str(TOP / "python"))
sys.dont_write_bytecode = True

from nushbaret.roster.output.html import COLOURS, style_of  # noqa: E402
from nushbaret.roster.output.page import SHADES_STYLE  # noqa: E402

IMPORT = re.compile(r'^import \{[^}]*\} from "\./([a-z]+)\.mjs";\n', re.M)
NAMED = re.compile(r"^(?:export )?(?:async )?(?:function\*?|const|let|class) (\w+|\[[^\]]*\])", re.M)


def stop(text: str) -> NoReturn:
    sys.exit(f"page/assemble.py: {text}")


def in_order(name: str, found: List[str]) -> List[str]:
    """A module after all that it imports."""
    text = (HERE / f"{name}.mjs").read_text(encoding="utf-8")
    for other in IMPORT.findall(text):
        if other not in found:
            in_order(other, found)
    found.append(name)
    return found


def shared() -> str:
    """What the command and the page both need, as data."""
    data = json.loads((TOP / "python/nushbaret/roster/shared.json").read_text(encoding="utf-8"))
    return json.dumps(data, ensure_ascii=False, separators=(",", ":"))


def script(name: str) -> str:
    """A module and all that it imports as one script."""
    owners: Dict[str, str] = {}
    parts = []
    for module in in_order(name, []):
        text = (HERE / f"{module}.mjs").read_text(encoding="utf-8")
        for own in re.findall(r"\w+", " ".join(NAMED.findall(text))):
            if own in owners:
                stop(f"{own} is in {owners[own]}.mjs and in {module}.mjs")
            owners[own] = module
        parts.append(re.sub(r"^export ", "", IMPORT.sub("", text), flags=re.M).strip())
    if re.search(r"^import ", "\n".join(parts), re.M):
        stop(f"an import of {name}.mjs that isn't known")
    whole = f'\n"use strict";\nglobalThis.SHARED = {shared()};\n(() => {{\n' + "\n\n".join(parts) + "\n})();\n"
    if "</script" in whole or "<!--" in whole:
        stop(f"{name}.mjs would end the script")
    return whole


def sum_of(text: str) -> str:
    """The sum of a script or a style, as a policy names it."""
    return "'sha256-" + base64.b64encode(hashlib.sha256(text.encode()).digest()).decode() + "'"


def defined(name: str) -> str:
    """What the header defines."""
    found = re.search(rf'^#define {name} "?([^\s"]+)"?$', (TOP / "c/nushbaret.h").read_text(encoding="utf-8"), re.M)
    if found is None:
        stop(f"c/nushbaret.h has no {name}")
    return found[1]


def page(module: bytes) -> str:
    """The page with a module."""
    main = script("main")
    own = (HERE / "page.css").read_text(encoding="utf-8")
    style = COLOURS + style_of("frame.css") + style_of("page.css") + style_of("month.css") + SHADES_STYLE + own
    policy = (f"default-src 'none'; script-src {sum_of(main)} 'wasm-unsafe-eval'; style-src {sum_of(style)}; "
              "worker-src blob:; " "base-uri 'none'; form-action 'none'")
    text = (HERE / "page.html").read_text(encoding="utf-8")
    for place, content in (("POLICY", policy), ("STYLE", style), ("MOST", defined("NUSHBARET_MOST_PERSONS")),
                           ("VERSION", defined("NUSHBARET_VERSION")), ("WORKER", script("worker")), ("MAIN", main),
                           ("MODULE", base64.b64encode(gzip.compress(module, 9, mtime=0)).decode())):
        if f"@{place}@" not in text:
            stop(f"page.html has no place for {place}")
        text = text.replace(f"@{place}@", content)
    return text


if __name__ == "__main__":
    if len(sys.argv) != 2:
        stop("the module is to be named")
    sys.stdout.buffer.write(page(pathlib.Path(sys.argv[1]).read_bytes()).encode())
