"""The manual's pages, made of the roster command's options, of the header for C, and of the program's help, where a
program is named: manual.py HEADER VERSION FOLDER [PROGRAM].

FOLDER/man1 gets the page of the roster command and that of the program, FOLDER/man3 one of the header, nushbaret.3, and
one of each of its calls.
"""
import pathlib
import re
import sys
import textwrap

from headers import read_header
from helps import manual, read_all

escaped, heading, option_lines, verbatim = manual.escaped, manual.heading, manual.option_lines, manual.verbatim


def paragraph(block):
    """A paragraph of a comment: a list, lines that stand as they are, or a text that is filled."""
    lines = block.splitlines()
    if block.startswith("- "):
        items = re.split(r"^- ", block, flags=re.M)[1:]
        return [line for item in items for line in (".IP \\(bu 2", escaped(" ".join(item.split())))]
    if any(re.search(r"\S {2,}\S|^ {4}", line) for line in lines):
        return verbatim(block)
    return [".PP", escaped(" ".join(block.split()))]


def blocks_of(comment):
    """The paragraphs of a comment, without what all its lines are indented by."""
    first, _, others = comment.strip("\n").partition("\n")
    return [block for block in re.split(r"\n\s*\n", f"{first.strip()}\n{textwrap.dedent(others)}".strip())
            if block.strip()]


def notes_lines(notes):
    """The notes of a help; where one begins with a title of its own, that becomes a heading."""
    for note in notes:
        title, _, others = note.partition("\n")
        if title.endswith(":") and others and all(line.startswith("  ") for line in others.splitlines()):
            yield from (f'.SS "{escaped(title[:-1])}"', *verbatim(textwrap.dedent(others))[1:])
        else:
            yield from verbatim(note)


def program_page(program, version):
    """The page of the program, of its help and that of each command."""
    top, commands = read_all(program)
    lines = heading("auction_cli", 1, version) + [".SH NAME", f"auction_cli \\- {escaped(top.about)}", ".SH SYNOPSIS"]
    for described in commands.values():
        lines += [f"\\fB{escaped(described.usage)}\\fR", ".br"]
    lines += [f"\\fB{escaped(top.usage)}\\fR", ".SH OPTIONS", *option_lines(top.options), ".SH COMMANDS"]
    lines += [line for entry in top.commands for line in (".TP", f"\\fB{entry.name}\\fR", escaped(entry.text))]
    lines += notes_lines(top.notes)
    for name, described in commands.items():
        lines += [f".SH {name.upper()}", escaped(described.about),
                  *option_lines([*described.arguments, *described.options])]
        lines += notes_lines(described.notes)
    return "\n".join([*lines, ".SH SEE ALSO", "\\fBnushbaret\\fR(1), \\fBnushbaret\\fR(3)", ""])


def groups_of(parts):
    """The parts that declare functions, where those that begin with `The same` go with the one before."""
    groups = []
    for part in parts:
        if part.calls() and part.comment.startswith("The same") and groups:
            groups[-1].append(part)
        elif part.calls():
            groups.append([part])
    return groups


def names_of(group):
    return [name for part in group for name in part.calls()]


def see_also(names):
    return [".SH SEE ALSO", ",\n".join(f"\\fB{name}\\fR(3)" for name in names)]


def summary_of(comment):
    """The first sentence of a comment, or what stands before its first colon, as the line of a name needs it."""
    summary = re.split(r"[:.](?:\s|$)", " ".join(comment.split()))[0]
    return escaped(summary[0].lower() + summary[1:])


def call_page(group, names, version):
    """The page of a call, and of those that differ from it by little."""
    here = names_of(group)
    lines = heading(here[0], 3, version)
    lines += [".SH NAME", f"{', '.join(here)} \\- {summary_of(group[0].comment)}", ".SH SYNOPSIS", ".nf",
              "#include <nushbaret.h>"]
    lines += [line for part in group for code in part.calls().values() for line in ("", escaped(code))]
    lines += [".fi", ".SH DESCRIPTION"]
    for part in group:
        lines += [f'.SS "{", ".join(part.calls())}"'] if len(group) > 1 else []
        lines += [line for block in blocks_of(part.comment) for line in paragraph(block)]
    lines += [".PP", "What a caller owes, the codes, and what each leaves where: \\fBnushbaret\\fR(3)."]
    return "\n".join([*lines, *see_also(["nushbaret", *(name for name in names if name not in here)]), ""])


def header_page(parts, names, version):
    """The page of the header: its first comment, and all that it declares besides functions."""
    first, *blocks = blocks_of(parts[0].comment)
    summary = " ".join(first.split()).rpartition(": ")[2].rstrip(".")
    lines = heading("nushbaret", 3, version)
    lines += [".SH NAME", f"nushbaret \\- {escaped(summary)}", ".SH SYNOPSIS", "#include <nushbaret.h>",
              ".SH DESCRIPTION"]
    for block in blocks:
        lines += [f'.SH "{escaped(block)}"'] if re.fullmatch(r"[A-Z ,+]+", block) else paragraph(block)
    lines.append('.SH "LIMITS, CODES AND STRUCTS"')
    for part in parts:
        if part.others() and part is not parts[0]:
            lines += [line for block in blocks_of(part.comment) for line in paragraph(block)]
        lines += verbatim("\n".join(part.others())) if part.others() else []
    return "\n".join([*lines, *see_also(names), ""])


def pages(header, version, programs):
    """The name of each page, and its text."""
    parts = read_header(header)
    groups = groups_of(parts)
    names = [name for group in groups for name in names_of(group)]
    yield f"man1/{manual.words.NAME}.1", manual.command_page()
    yield from (("man1/auction_cli.1", program_page(program, version)) for program in programs)
    yield "man3/nushbaret.3", header_page(parts, names, version)
    for group in groups:
        first, *others = names_of(group)
        yield f"man3/{first}.3", call_page(group, names, version)
        yield from ((f"man3/{name}.3", f".so man3/{first}.3\n") for name in others)


def main():
    header, version, folder, *programs = sys.argv[1:]
    for name, text in pages(pathlib.Path(header).read_text(encoding="utf-8"), version, programs):
        file = pathlib.Path(folder) / name
        file.parent.mkdir(parents=True, exist_ok=True)
        file.write_text(text, encoding="utf-8")


if __name__ == "__main__":
    main()
