#!/usr/bin/env python3
"""Whether the pages are true and plain: tests/pages.py [--text] [PAGE.md] [PROGRAM].

Runs each `$` line of a page, or of those in RUN, with the built program on the path (rt run in crates/auction_cli)
and the Python package over the library that c/build.sh made, and compares what it prints, on both streams, with what
stands below it; a line `..` stands for any lines. Lines that use a release run over the files of release/; where it
has none yet, or Python can't make a virtual environment, they are shown as not run. With --text it runs nothing, and
needs no program.

Then it looks at the text of all pages: links and names of files that lead nowhere, lines of more than 100 characters,
sentences of more than 35 words, and the words of AVOIDED. Each claim of docs/PROVED.md links to its contract, and the
file that a link leads to has what the link names. Tables, code and quoted output are exempt; they count where the
words of a page, or of all, are too many. It asks docs/definitions.py for a definition, and each public definition has
a comment. The doc comments of crates, the comments of their specs and of all scripts and programs, and all texts of
Python avoid the same words. And it looks for each block below `# Example` in the documentation of calls, and for each
block that docs/CALLING.md shows other crates, among the lines of crates/calling, which the gate proves. Prints what
is wrong, and ends with status 1 then.
"""
import glob
import importlib.util
import os
import re
import shutil
import subprocess
import sys
import tempfile
import tokenize

TOP = os.path.dirname(os.path.dirname(os.path.abspath(__file__)))
PROGRAM = os.path.join(TOP, "crates/auction_cli/out/auction_cli")
RUN = ["README.md", "docs/MODELLING.md", "docs/PROGRAM.md"]
# A command that uses a release, or the environment that it was installed in.
RELEASED = re.compile(r"\./try\b|\brelease/|\bplanner\b|\blocal/")
# The most words of each page; the list of changes may have any number.
MOST_OF_PAGE = {"README.md": 1400, "SECURITY.md": 240, "bench/README.md": 880, "docs/ARCHITECTURE.md": 1180,
                "docs/BEYOND.md": 570, "docs/CALLING.md": 600, "docs/CONTRIBUTING.md": 885,
                "docs/DECISIONS.md": 1200, "docs/FORMATS.md": 1270, "docs/MODELLING.md": 880,
                "docs/PROGRAM.md": 1080, "docs/PROOFS.md": 1245, "docs/PROVED.md": 3525, "docs/PYTHON.md": 1435,
                "docs/ROSTERS.md": 1740, "docs/RULES.md": 1390, "docs/TESTING.md": 590, "examples/README.md": 160}
# The most words of all these pages together.
MOST_OF_ALL = 20000
UNCOUNTED = ("CHANGELOG.md",)
# The sources whose comments avoid the same words, the beginning of these comments, and code in them.
COMMENTS = {"crates/*/src/**/*.rt": re.compile(r"(?:.*\s)?\s*//"), "crates/*/specs/**/*.antt": re.compile(r"\s*--"),
            "crates/*/proofs/**/*.antt": re.compile(r"\s*--")}
# The other sources, and what their comments are, by how their names end; the texts of Python are found by its own
# reader.
SCRIPTED = (".ci/run", "prove", "bench/**/*", "c/*", "docs/*.py", "page/*", "programs/**/*", "python/**/*.py",
            "release/**/*", "tests/**/*")
SCRIPTS = {("/run", ".sh"): re.compile(r'^\s*#.*$|"""[\s\S]*?"""', re.M),
           (".c", ".h"): re.compile(r"/\*.*?\*/", re.DOTALL), (".rs", ".rt.txt"): re.compile(r"^\s*//.*$", re.M),
           (".mjs",): re.compile(r"^\s*//.*$|/\*\*.*?\*/", re.M | re.S)}
QUOTED = re.compile(r"```.*?```|`[^`\n]*`", re.DOTALL)
# The crate of examples, and the section of a page that shows some of them.
EXAMPLES = "crates/calling/src"
SHOWN = ("docs/CALLING.md", "## Another crate in Rattle")
WIDEST = 100
LONGEST = 35
# Words to avoid, in backticks, each line with what to write; `such (except 'such as')` spares what stands in quotes.
AVOIDED = """
`tell, tells, told, telling`            report, show, print, say
`such (except 'such as')`               this, these, so
`thereof, therein, thereby, hence`      its, in it, so
`whom, whoever, whichever, whatsoever`  who; rephrase
`anew, in vain, lest, nor`              again; without effect; or; and .. not
`beside, behind`                        next to, compared with; after
`wants, want of`                        needs, prefers; lack of
`but for`                               except for
"""
# A sentence ends here; a new one begins with a capital letter, a number, a name of code or a bracket.
END = re.compile(r"(?<!\be\.g)(?<!\bi\.e)(?<!\bvs)[.!?][)\"'*]*\s+(?=[\"'(*\[]*[A-Z0-9`])")
CODE = re.compile(r"`[^`]*`")
ITEM = re.compile(r"\A\s*(?:[-*]|\d+\.) ")
LINK = re.compile(r"\]\(([^)\s]+)\)")
# A link to the contract of a call, or to a definition.
CONTRACT = re.compile(r"\[`([\w:]+)`\]\(([^)\s]+\.(?:rt|antt))\)")
# The page of claims, and the heading below which they name no contract.
CLAIMS = ("docs/PROVED.md", "## What no contract says")
FILE = re.compile(r"`((?:\.ci|bench|c|crates|docs|examples|page|programs|release|tests)/[\w./-]+)`")
# This is no file of a fresh clone: what a build makes, and what release/make.sh does.
MADE = re.compile(r"/out(/|$)|/NAME|^release/(auction_cli|nushbaret.html|SOURCE|SHA256SUMS)$")


def lines_of(page):
    with open(os.path.join(TOP, page), encoding="utf-8") as file:
        return file.read().splitlines()


def pages():
    found = (os.path.relpath(path, TOP) for path in glob.glob(os.path.join(TOP, "**/*.md"), recursive=True))
    return sorted(page for page in found if "/out/" not in page)


def is_whole(command):
    """Whether the shell needs no further line; it warns of a text within a command that doesn't end."""
    ran = subprocess.run(["bash", "-n", "-c", command], capture_output=True)
    return ran.returncode == 0 and not ran.stderr


def is_code(line):
    return line.startswith("    ")


def sessions(page):
    """Each command of a page with the number of its line and what stands below it."""
    lines = lines_of(page)
    place = 0
    while place < len(lines):
        place += 1
        if not lines[place - 1].startswith("    $ "):
            continue
        number, command = place, lines[place - 1][6:]
        while not is_whole(command) and place < len(lines) and is_code(lines[place]):
            command += "\n" + lines[place][4:]
            place += 1
        below = []
        while place < len(lines) and is_code(lines[place]) and not lines[place].startswith("    $ "):
            below.append(lines[place][4:])
            place += 1
        yield number, command, "\n".join(below)


def unreleased(command):
    """Why a command can't run here, if it uses a release and can't."""
    if not RELEASED.search(command):
        return None
    if not os.path.exists(os.path.join(TOP, "release/SHA256SUMS")):
        return "release/ has no artefacts yet"
    if "planner" in command and subprocess.run(["python3", "-c", "import ensurepip, venv"],
                                               capture_output=True).returncode:
        return "Python can't make a virtual environment"
    if command.startswith("cc ") and not shutil.which("cc"):
        return "there is no compiler of C"
    return None


def surroundings(work, command):
    """The environment of a command: the program on the path, and the Python package of the checkout or of the
    release."""
    path = os.path.join(work, "bin") + os.pathsep + os.environ["PATH"]
    found = {**os.environ, "PATH": path, "PYTHONDONTWRITEBYTECODE": "1", "PIP_NO_INDEX": "1",
             "PIP_DISABLE_PIP_VERSION_CHECK": "1"}
    found.pop("PYTHONPATH", None)
    return found if RELEASED.search(command) else {**found, "PYTHONPATH": os.path.join(TOP, "python")}


def is_printed(wanted, printed):
    """Whether what is printed is what a page shows, where a line `..` stands for any lines."""
    lines = (r"(.*\n)*" if line == ".." else re.escape(line) + r"\n" for line in wanted.splitlines())
    return re.fullmatch("".join(lines), printed.rstrip("\n") + "\n" * bool(printed.strip("\n"))) is not None


def run_page(page, program, faults):
    """Runs the commands of a page one after the other in a folder of their own."""
    with tempfile.TemporaryDirectory() as work:
        os.makedirs(os.path.join(work, "bin"))
        os.symlink(program, os.path.join(work, "bin", "auction_cli"))
        for folder in ("examples", "tests", "release", "try"):
            os.symlink(os.path.join(TOP, folder), os.path.join(work, folder))
        for number, command, wanted in sessions(page):
            why = unreleased(command)
            if why:
                print(f"{page}:{number}: not run, {why}: {command}")
                continue
            ran = subprocess.run(["bash", "-c", command], cwd=work, env=surroundings(work, command), text=True,
                                 stdin=subprocess.DEVNULL, stdout=subprocess.PIPE, stderr=subprocess.STDOUT)
            if not is_printed(wanted, ran.stdout):
                faults.append(f"{page}:{number}: {command}\nwanted:\n{wanted}\ngot:\n{ran.stdout}")


def heading_name(line):
    """The fragment that leads to a heading."""
    return re.sub(r"[^\w\- ]", "", line.lstrip("#").strip().lower()).replace(" ", "-")


def is_there(page, target):
    """Whether a link of a page leads to a file of the repository, and to a heading where it names one."""
    name, _, fragment = target.partition("#")
    there = os.path.normpath(os.path.join(os.path.dirname(page), name)) if name else page
    if there.startswith("..") or not os.path.exists(os.path.join(TOP, there)):
        return False
    return not fragment or fragment in [heading_name(line) for line in lines_of(there) if line.startswith("#")]


def look_for_links(page, faults):
    for number, line in enumerate(lines_of(page), 1):
        if is_code(line):
            continue
        for target in LINK.findall(line):
            if "://" not in target and not is_there(page, target):
                faults.append(f"{page}:{number}: {target} leads nowhere")
        for name in FILE.findall(line):
            if not MADE.search(name) and not os.path.exists(os.path.join(TOP, name)):
                faults.append(f"{page}:{number}: there is no {name}")


def look_for_contracts(page, faults):
    """Looks in the file that a link leads to for the function or the definition that the link names."""
    for number, line in enumerate(lines_of(page), 1):
        for name, target in CONTRACT.findall(line):
            there = os.path.normpath(os.path.join(os.path.dirname(page), target))
            declared = re.compile(rf"\b(?:fn|pub)\b.*\b{name.split('::')[-1]}\b")
            if is_there(page, target) and not any(map(declared.search, lines_of(there))):
                faults.append(f"{page}:{number}: {there} has no {name}")


def look_for_claims(faults):
    """Looks for claims on crates without a link to a contract."""
    page, end = CLAIMS
    lines = lines_of(page)
    first = next(place for place, line in enumerate(lines, 1) if line.startswith("## `"))
    for number, text in paragraphs(page):
        if first < number < lines.index(end) and ITEM.match(text) and not CONTRACT.search(text):
            faults.append(f"{page}:{number}: this claim names no contract")


def look_for_wide_lines(page, faults):
    for number, line in enumerate(lines_of(page), 1):
        if len(line) > WIDEST and not is_code(line) and not line.startswith("|"):
            faults.append(f"{page}:{number}: {len(line)} characters")


def paragraphs(page):
    """Each paragraph, item and heading of a page with the number of its first line, tables and code apart."""
    number, held = 0, []
    for place, line in enumerate(lines_of(page) + [""], 1):
        ends = not line.strip() or is_code(line) or line.startswith(("|", "#")) or ITEM.match(line)
        if ends and held:
            yield number, " ".join(held)
            held = []
        if not line.strip() or is_code(line) or line.startswith("|"):
            continue
        number = number if held else place
        held.append(line.strip().lstrip("#").strip())


def sentences(text):
    """The sentences of a paragraph, with a name of code as one word and a link as its text."""
    text = re.sub(r"\[([^\]]*)\]\([^)]*\)", r"\1", CODE.sub("`", text))
    return re.split(END, ITEM.sub("", text, count=1))


def avoided():
    """What finds a word to avoid."""
    parts = []
    for entry in (entry for words in re.findall("`(.*)`", AVOIDED) for entry in words.split(", ")):
        word, _, spared = entry.partition(" (except '")
        parts.append(re.escape(word) + (f"(?!{re.escape(spared[len(word):-2])})" if spared else ""))
    return re.compile(rf"\b({'|'.join(parts)})\b".replace("\\ ", r"\s+"), re.IGNORECASE)


def look_at_sentences(page, words_to_avoid, faults):
    for number, text in paragraphs(page):
        for sentence in sentences(text):
            words = [word for word in sentence.split() if re.search(r"[\w`]", word)]
            if len(words) > LONGEST:
                faults.append(f"{page}:{number}: {len(words)} words: {' '.join(words[:8])} ..")
            for word in words_to_avoid.findall(sentence):
                faults.append(f"{page}:{number}: avoid '{word}'")


def look_at_comments(words_to_avoid, faults):
    """Looks for words to avoid in the comments of crates, their specs and their proofs."""
    for pattern, mark in COMMENTS.items():
        for path in sorted(glob.glob(os.path.join(TOP, pattern), recursive=True)):
            name = os.path.relpath(path, TOP)
            found = ((mark.match(line), line) for line in lines_of(name))
            text = "\n".join(line[begins.end():] if begins else "" for begins, line in found)
            text = QUOTED.sub(lambda code: "\n" * code[0].count("\n"), text)
            for word in words_to_avoid.finditer(text):
                faults.append(f"{name}:{text.count(chr(10), 0, word.start()) + 1}: avoid '{' '.join(word[0].split())}'")


def texts_of_python(path):
    """Each comment and text of a Python file with the number of its line."""
    with open(path, "rb") as file:
        for token in tokenize.tokenize(file.readline):
            if token.type in (tokenize.COMMENT, tokenize.STRING, getattr(tokenize, "FSTRING_MIDDLE", None)):
                yield token.start[0], token.string


def comments_of(path):
    """Each comment of a source outside the crates with the number of its first line."""
    name = os.path.basename(path)
    if path.endswith(".py") or name == "prove":
        yield from texts_of_python(path)
        return
    for kinds, comment in SCRIPTS.items():
        if path.endswith(kinds):
            with open(path, encoding="utf-8") as file:
                text = file.read()
            yield from ((text.count("\n", 0, found.start()) + 1, found[0]) for found in comment.finditer(text))


def look_at_scripts(words_to_avoid, faults):
    """Looks for words to avoid in the comments of scripts and programs, and in the texts of Python too."""
    for folder in SCRIPTED:
        for path in sorted(glob.glob(os.path.join(TOP, folder), recursive=True)):
            if "/out/" in path or not os.path.isfile(path):
                continue
            for number, text in comments_of(path):
                for word in words_to_avoid.finditer(QUOTED.sub(lambda code: "\n" * code[0].count("\n"), text)):
                    faults.append(f"{os.path.relpath(path, TOP)}:{number}: avoid '{word[0]}'")


def look_at_definitions(faults):
    """Asks for a definition, and looks for public ones without a comment."""
    sys.dont_write_bytecode = True
    spec = importlib.util.spec_from_file_location("definitions", os.path.join(TOP, "docs/definitions.py"))
    script = importlib.util.module_from_spec(spec)
    spec.loader.exec_module(script)
    held = script.all_specs()
    for path, specs in held.items():
        faults += [f"{path}: {name} has no comment" for name, found in specs.definitions.items() if not found.comment]
    best = held["crates/assign_core/specs/Assignment.antt"].definitions["IsBest"]
    if [found.name for found in script.cited(best, held)] != ["Listing", "IsAssignment", "IsNoWorse", "total"]:
        faults.append("docs/definitions.py: IsBest doesn't cite what it does")


def sources(pattern):
    """The code of some crates."""
    return sorted(os.path.relpath(path, TOP) for path in glob.glob(os.path.join(TOP, pattern, "**/*.rt"),
                                                                   recursive=True))


def documented(path):
    """Each block of code below `# Example` in the documentation of a file, with the number of its first line."""
    number, held, below = 0, None, False
    for place, line in enumerate(lines_of(path) + [""], 1):
        comment, text = line.strip().startswith("///"), line.strip()[3:].strip()
        if held is not None and (not comment or text == "```"):
            yield number, held
            held = None
        elif held is not None:
            held.append(text)
        elif not comment or text.startswith("# "):
            below = comment and text == "# Example"
        elif below and text == "```":
            number, held = place + 1, []


def shown():
    """Each block of code of the page's section, with the number of its first line."""
    page, heading = SHOWN
    lines = lines_of(page)
    held = []
    for place in range(lines.index(heading) + 1, len(lines)):
        if lines[place].startswith("## "):
            break
        if is_code(lines[place]):
            held.append(lines[place].strip())
        elif held:
            yield place + 1 - len(held), held
            held = []


def look_at_examples(faults):
    """Looks for each example that is shown, line for line apart from indentation, in the crate that has them all."""
    proved = ["\n".join(["", *(line.strip() for line in lines_of(path)), ""]) for path in sources(EXAMPLES)]
    blocks = [(path, *block) for path in sources("crates/*/src") for block in documented(path)]
    for path, number, block in blocks + [(SHOWN[0], *block) for block in shown()]:
        if not any("\n".join(["", *block, ""]) in text for text in proved):
            faults.append(f"{path}:{number}: this example isn't in {EXAMPLES}")


def count_words(faults):
    """Compares the words of each page, and of all together, with the most that they may have."""
    counts = {page: len(" ".join(lines_of(page)).split()) for page in pages() if page not in UNCOUNTED}
    for page, count in counts.items():
        if page not in MOST_OF_PAGE:
            faults.append(f"{page}: no number of words in MOST_OF_PAGE")
        elif count > MOST_OF_PAGE[page]:
            faults.append(f"{page}: {count} words, at most {MOST_OF_PAGE[page]}")
    if sum(counts.values()) > MOST_OF_ALL:
        faults.append(f"all pages: {sum(counts.values())} words, at most {MOST_OF_ALL}")


def look_at_text(faults):
    words_to_avoid = avoided()
    for page in pages():
        look_for_links(page, faults)
        look_for_contracts(page, faults)
        look_for_wide_lines(page, faults)
        look_at_sentences(page, words_to_avoid, faults)
    look_for_claims(faults)
    count_words(faults)
    look_at_comments(words_to_avoid, faults)
    look_at_scripts(words_to_avoid, faults)
    look_at_definitions(faults)
    look_at_examples(faults)


def main():
    words = [word for word in sys.argv[1:] if word != "--text"]
    faults = []
    if "--text" not in sys.argv:
        chosen = [word for word in words if word.endswith(".md")]
        program = os.path.abspath(next((word for word in words if word not in chosen), PROGRAM))
        if not os.access(program, os.X_OK):
            sys.exit(f"tests/pages.py: no program at {program}")
        for page in chosen or RUN:
            run_page(page, program, faults)
    look_at_text(faults)
    for line in faults:
        print(line)
    sys.exit(1 if faults else 0)


if __name__ == "__main__":
    main()
