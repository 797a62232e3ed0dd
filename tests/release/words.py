#!/usr/bin/env python3
"""Compares the manual's pages and the completions of a release with the help of the roster command, the header for C,
and the program's help, where the release has a program: tests/release/words.py SHARE COMMAND HEADER [PROGRAM]. COMMAND
is a script of Python. Prints what differs, and ends with status 1 then. It reads all of them by itself."""
import os
import pathlib
import re
import subprocess
import sys

SHARE, COMMAND, HEADER, *PROGRAMS = map(pathlib.Path, sys.argv[1:])
COMMANDS = ("solve", "verify")
HEADS = ("Options:", "Arguments:", "Commands:", "")
differ = []


def compare(what, here, there):
    if here != there:
        differ.append(f"{what}: {here} in place of {there}")


def squeezed(text):
    return " ".join(text.split())


def plain(page):
    """What a reader sees of a page: without requests, fonts and escapes."""
    text = (SHARE / "man" / page).read_text()
    text = re.sub(r'^\.(?:SH|SS) "?(.*?)"?$', r"\1", text, flags=re.M)
    text = re.sub(r"^\..*\n", "", text, flags=re.M)
    text = re.sub(r"\\f[A-Z]|\\&", "", text)
    for written, mark in (("\\-", "-"), ("\\(aq", "'"), ("\\(ga", "`"), ("\\(ha", "^"), ("\\(ti", "~"), ("\\e", "\\")):
        text = text.replace(written, mark)
    return squeezed(text)


def help_of(*command):
    return subprocess.run([*PROGRAMS, *command, "--help"], capture_output=True, text=True, check=True).stdout


def roster_help():
    """The help of the roster command, each entry in a line of its own."""
    described = subprocess.run([COMMAND, "--help"], capture_output=True, text=True, check=True,
                               env={**os.environ, "COLUMNS": "100000"}).stdout
    return re.sub(r"\n {6,}", "  ", described)


def roster_options():
    """The options that it lists, with their values' names and their texts."""
    return [tuple(found) for found in re.findall(r"^  (?:-\w, )?(--[\w-]+)(?: (\S+))? {2,}(\S.*)$", roster_help(),
                                                 flags=re.M)]


def options_in(text):
    return sorted(set(re.findall(r"--[a-z][a-z-]*", text)))


def listed_options(text):
    """The options that a help lists, with their values' names."""
    return dict(re.findall(r"^ +(?:-\w, )?(--[\w-]+)(?: (<\w+>))?", text, flags=re.M))


def look_at_the_program():
    """Each line of each help stands in its section of the page, and no section has an option that its help hasn't."""
    page = plain("man1/auction_cli.1")
    top, *sections = re.split(r" (?:SOLVE|VERIFY) ", page.rpartition(" SEE ALSO ")[0])
    for command, section in zip([[], *([name] for name in COMMANDS)], [top, *sections]):
        described = help_of(*command)
        for line in described.splitlines():
            line = squeezed(line)
            wanted = line[len("Usage: "):] if line.startswith("Usage: ") else line[:-1] if line.endswith(":") else line
            if line not in HEADS and wanted not in (top if line.startswith("Usage: ") else section):
                differ.append(f"auction_cli.1 has nothing of {' '.join(command)}: {line}")
        compare(f"options of auction_cli.1, {' '.join(command)}", options_in(section), options_in(described))
    compare("sections of auction_cli.1", len(sections), len(COMMANDS))


def look_at_the_command():
    """Each line of the roster command's help stands on its page, except how its usage begins, and the page has no other
    option."""
    page, described = plain("man1/nushbaret.1"), roster_help()
    for line in described.partition("\n\n")[2].splitlines():
        line = squeezed(line)
        if line.rstrip(":") not in page and line not in ("positional arguments:", "options:"):
            differ.append(f"nushbaret.1 has nothing of: {line}")
    compare("options of nushbaret.1", options_in(page), options_in(described))


def look_at_its_completions():
    """bash offers its options and what their values may be; the scripts for zsh and fish have its options, with their
    texts, and no other."""
    options = roster_options()
    names = sorted(name for name, _, _ in options)
    compare("bash, nushbaret", answers_of_bash("nushbaret", "--"), names)
    compare("bash, a roster", answers_of_bash("nushbaret", "--max", "ma"), ["man"])
    for name, value, _ in options:
        if re.search("FILE|PLAN", value):
            compare(f"bash, {name}", answers_of_bash("nushbaret", name, "ma"), ["man"])
            compare(f"bash, {name}=", answers_of_bash("nushbaret", name, "=", "ma"), ["man"])
    compare("bash, --decimals", answers_of_bash("nushbaret", "--decimals", ""), list("0123456"))
    compare("bash, --change-cost", answers_of_bash("nushbaret", "--change-cost", ""), [])
    zsh = (SHARE / "zsh/site-functions/_nushbaret").read_text()
    fish = (SHARE / "fish/vendor_completions.d/nushbaret.fish").read_text()
    in_zsh = {name.strip("{,"): text for name, text in re.findall(r"(--[\w-]+)=?\}?'?\[((?:\\.|[^]\\])*)\]", zsh)}
    in_fish = dict(re.findall(r"^complete -c nushbaret -l (\S+).* -d '((?:\\'|[^'])*)'$", fish, flags=re.M))
    compare("zsh, nushbaret", {name: re.sub(r"\\([][:])", r"\1", text.replace("'\\''", "'"))
                               for name, text in in_zsh.items()}, {name: text for name, _, text in options})
    compare("fish, nushbaret", {f"--{name}": text.replace("\\'", "'") for name, text in in_fish.items()},
            {name: text for name, _, text in options})


def look_at_the_header():
    """Each call has a page with its declaration and its comment; each line of a comment at the margin stands on a page,
    and each other line of what is declared."""
    header = HEADER.read_text()
    calls = re.findall(r"(?:/\*((?:(?!\*/).)*)\*/\n)?^((?:static inline )?\w+ (nushbaret_\w+)\([^{;]*\))[;\s{]", header,
                       flags=re.M | re.S)
    pages = {}
    for file in sorted((SHARE / "man/man3").iterdir()):
        elsewhere = re.match(r"\.so (\S+)$", file.read_text())
        pages[file.stem] = plain(elsewhere[1] if elsewhere else f"man3/{file.name}")
    compare("pages of calls", sorted(pages), sorted(["nushbaret", *(name for _, _, name in calls)]))
    for comment, declared, name in calls:
        for what in [declared, *re.split(r"\n\s*\n", comment)]:
            if squeezed(what) not in pages.get(name, ""):
                differ.append(f"{name}.3 has nothing of: {squeezed(what)}")
    every = " ".join(pages.values())
    described = [line for comment in re.findall(r"^/\*(.*?)\*/", header, flags=re.M | re.S)
                 for line in comment.splitlines()]
    described += re.findall(r"^#define NUSHBARET_\w+ .*$", header, flags=re.M)
    described += [line for kind in re.findall(r"^(?:struct|enum) \w+ \{.*?^\};", header, flags=re.M | re.S)
                  for line in kind.splitlines()]
    for line in described:
        line = re.sub(r"^- ", "", squeezed(line)).replace("Nushbaret for C and C++: ", "").rstrip(".")
        if line not in every:
            differ.append(f"no page of section 3 has: {line}")


def answers_of_bash(name, *words):
    """What bash offers after the name of a command and these words; the last is to be completed."""
    asked = (f"source \"$1\" && shift && COMP_WORDS=(\"$@\") && COMP_CWORD=$(($# - 1)) && complete -p {name} > "
             f"/dev/null && {{ _{name}; printf '%s\\n' \"${{COMPREPLY[@]}}\"; }}")
    script = SHARE / "bash-completion/completions" / name
    ran = subprocess.run(["bash", "--norc", "-c", asked, "bash", script, name, *words], capture_output=True, text=True,
                         cwd=SHARE)
    if ran.returncode or ran.stderr:
        differ.append(f"bash completes {name} {words} with status {ran.returncode}: {ran.stderr}")
    return sorted(ran.stdout.split())


def look_at_bash():
    compare("bash, the first word", answers_of_bash("auction_cli", ""),
            sorted(["-h", "help", *COMMANDS, *listed_options(help_of())]))
    compare("bash, help", answers_of_bash("auction_cli", "help", ""), sorted(COMMANDS))
    for command in COMMANDS:
        described = help_of(command)
        compare(f"bash, {command}", answers_of_bash("auction_cli", command, "--"), sorted(listed_options(described)))
        for option, value in listed_options(described).items():
            if value in ("<FILE>", "<REPORT>"):
                compare(f"bash, {option}", answers_of_bash("auction_cli", command, option, "ma"), ["man"])
                compare(f"bash, {option}=", answers_of_bash("auction_cli", command, option, "=", "ma"), ["man"])
    compare("bash, --method", answers_of_bash("auction_cli", "solve", "--method", ""), ["auction", "paths"])
    compare("bash, --mode=", answers_of_bash("auction_cli", "solve", "--mode", "=", "w"), ["workers"])
    compare("bash, --sense", answers_of_bash("auction_cli", "verify", "--sense", ""), ["max", "min"])
    compare("bash, --workers", answers_of_bash("auction_cli", "solve", "--workers", ""), [])
    compare("bash, a report", answers_of_bash("auction_cli", "verify", "--sparse", "ma"), ["man"])


def look_at_the_others():
    """The scripts for zsh and fish have the options of each command, with their texts, and no other."""
    zsh = (SHARE / "zsh/site-functions/_auction_cli").read_text()
    fish = (SHARE / "fish/vendor_completions.d/auction_cli.fish").read_text()
    for command in COMMANDS:
        described = help_of(command)
        part = re.search(rf"\n +{command}\)\n(.*?);;", zsh, flags=re.S)[1]
        compare(f"zsh, {command}", sorted(set(re.findall(r"(--[\w-]+)=?\[|,(--[\w-]+)\}", part))),
                sorted((name, "") if name != "--help" else ("", name) for name in listed_options(described)))
        lines = re.findall(rf"__fish_seen_subcommand_from {command}' -l (\S+).* -d '(.*)'$", fish, flags=re.M)
        compare(f"fish, {command}", sorted(f"--{name}" for name, _ in lines), sorted(listed_options(described)))
        for name, text in lines:
            text = text.replace("\\'", "'")
            if text not in squeezed(described) or text.replace("'", "'\\''") not in re.sub(r"\\([][:])", r"\1", part):
                differ.append(f"fish or zsh, {command} --{name}: another text")


look_at_the_command()
look_at_its_completions()
look_at_the_header()
if PROGRAMS:
    look_at_the_program()
    look_at_bash()
    look_at_the_others()
for line in differ:
    print(line)
sys.exit(bool(differ))
