"""The guide to rosters as it is installed: the texts of docs/ROSTERS.md and docs/RULES.md for a command on the path,
and the same as a page of HTML."""
import re
from html import escape
from typing import Dict, Iterator, List, Tuple

# What is true in a checkout alone: where it is said how to install, and a sentence with the line of code below it.
INSTALLS = re.compile(r"\[README\.md\]\([^()]*\) installs it[;.]\s")
CHECKOUT = re.compile(r"(?:(?<=\n)|(?<=\. ))[^.\n]*(?:\n[^.\n]+)*:\n\n    \$ export PYTHONPATH=python\n")
INLINE = (
    (re.compile(r"\[([^][]+)\]\((#[^()]*)\)"), r'<a href="\2">\1</a>'),
    (re.compile(r"\*\*([^*]+)\*\*"), r"<b>\1</b>"),
)
# What the pages of the guide call each other.
LINKS = {"[RULES.md](RULES.md)": "[Rosters with rules](#rosters-with-rules)",
         "[ROSTERS.md](ROSTERS.md)": "[Rosters with names](#rosters-with-names-the-command)"}
STYLE = """
:root { color-scheme: light dark }
body { font: 16px/1.5 sans-serif; max-width: 46em; margin: 1em auto; padding: 0 1em }
table { border-collapse: collapse }
td, th { border: 1px solid #888; padding: .2em .5em; text-align: left; vertical-align: top }
pre { overflow-x: auto; padding: .5em; border: 1px solid #888 }
code, pre { font-size: 14px }
"""


def guide_text(page: str) -> str:
    """The page for somebody who has the command: without what only a checkout has, and without links to other pages."""
    found = CHECKOUT.findall(page)
    if len(found) != 1:
        raise SystemExit(f"the page of rosters says {len(found)} times how the command is found in a checkout")
    return _installed(CHECKOUT.sub("\n", INSTALLS.sub("", page)))


def _installed(page: str) -> str:
    """A page with the command on the path. Its links to the other page of the guide stay."""
    page = re.sub(r"^(    .*)$", lambda line: line[1].replace("python3 -m nushbaret ", "nushbaret "), page, flags=re.M)
    for link, text in LINKS.items():
        page = page.replace(link, text)
    return re.sub(r"\[([^][]+)\]\((?!#|https?:)[^()]*\)", r"\1", page)


def guide_page(text: str) -> str:
    """A text with headings, paragraphs, lists and indented code as a page."""
    title = text.partition("\n")[0].lstrip("# ")
    body = "\n".join(_block(kind, lines) for kind, lines in _blocks(text.split("\n")))
    return ('<!DOCTYPE html>\n<html lang="en">\n<head>\n<meta charset="utf-8">\n<meta name="viewport" '
            'content="width=device-width">\n'
            f"<title>{escape(title)}</title>\n<style>{STYLE}</style>\n</head>\n<body>\n{body}\n</body>\n</html>\n")


def _blocks(lines: List[str]) -> Iterator[Tuple[str, List[str]]]:
    """The blocks of a text, each with its kind: code, a heading, a list, or a paragraph."""
    held: List[str] = []
    before = ""
    for line in [*lines, "#"]:
        kind = ("code" if line.startswith("    ") and before != "list" else "blank" if not line.strip()
                else _kind(line, before))
        if kind == "blank" and before in ("code", "list"):
            held.append("")
            continue
        if held and (kind != before or kind == "heading"):
            yield before, held
            held = []
        if kind != "blank":
            held.append(line)
        before = kind


def _kind(line: str, before: str) -> str:
    """The kind of a line that isn't blank or code."""
    if line.startswith(("```", "1. ", "* ", ">")):
        raise SystemExit(f"the page of rosters has what its guide can't show: {line}")
    if line.startswith("|"):
        return "table"
    return "heading" if line.startswith("#") else "list" if line.startswith(("- ", "  ")) else "paragraph"


def _block(kind: str, lines: List[str]) -> str:
    text = "\n".join(lines).rstrip("\n")
    if kind == "code":
        return "<pre>" + escape("\n".join(line[4:] for line in text.split("\n"))) + "</pre>"
    if kind == "heading":
        level, _, words = text.partition(" ")
        name = re.sub(r"[^\w\- ]", "", words.lower()).replace(" ", "-")
        return f'<h{len(level)} id="{name}">{_inline(words)}</h{len(level)}>'
    if kind == "table":
        return _table(text.split("\n"))
    if kind == "list":
        items = re.split(r"^- ", text, flags=re.M)[1:]
        return "<ul>\n" + "\n".join(f"<li>{_inline(item)}</li>" for item in items) + "\n</ul>"
    return f"<p>{_inline(text)}</p>"


def _table(lines: List[str]) -> str:
    """A table, whose second line is a rule."""
    rows = [[_inline(cell.strip()) for cell in line.strip("|").split("|")] for line in [lines[0], *lines[2:]]]
    head = " ".join(f"<th>{cell}</th>" for cell in rows[0])
    body = "".join("<tr>" + " ".join(f"<td>{cell}</td>" for cell in row) + "</tr>\n" for row in rows[1:])
    return f"<table>\n<tr>{head}</tr>\n{body}</table>"


def _inline(text: str) -> str:
    """Words with code, links within the page, and stress."""
    parts = re.split("(`[^`]+`)", " ".join(text.split()))
    return "".join(f"<code>{escape(part[1:-1])}</code>" if part.startswith("`") else _marked(escape(part))
                   for part in parts)


def _marked(text: str) -> str:
    for pattern, written in INLINE:
        text = pattern.sub(written, text)
    return text


def guide_files(page: str, rules: str, examples: Dict[str, bytes]) -> Dict[str, bytes]:
    """What is installed, by its name in the folder of the guide."""
    text = f"{guide_text(page)}\n{_installed(rules)}"
    return {"rosters.txt": text.encode(), "rosters.html": guide_page(text).encode(),
            **{f"examples/{name}": content for name, content in examples.items()}}
