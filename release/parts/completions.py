"""Completions of the words of both commands for bash, zsh and fish: completions.py SHARE [PROGRAM].

Those of the program are made of its help, and those of the roster command of its table of options.
"""
import pathlib
import sys

from helps import manual, read_all, roster_help

BASH = """# Completes the words of @NAME@ in bash.

_@NAME@_files() {
    local IFS=$'\\n'
    compopt -o filenames 2> /dev/null
    COMPREPLY=($(compgen -f -- "$cur"))
}

_@NAME@() {
    local IFS=$' \\t\\n' cur=${COMP_WORDS[COMP_CWORD]} before=${COMP_WORDS[COMP_CWORD - 1]} command= words plain word
    COMPREPLY=()
    if [ "$cur" = = ]; then
        cur=
    elif [ "$before" = = ]; then
        before=${COMP_WORDS[COMP_CWORD - 2]}
    fi
    case "$before" in
@VALUES@
    esac
@PLACE@
    if [[ $cur == -* || $plain == : ]]; then
        COMPREPLY=($(compgen -W "$words" -- "$cur"))
    else
        $plain
    fi
}

complete -F _@NAME@ @NAME@
"""

# Which words may stand after a command of the program.
BASH_COMMANDS = """    for word in "${COMP_WORDS[@]:1:COMP_CWORD - 1}"; do
        case "$word" in @NAMES@) command=$word; break ;; esac
    done
    case "$command" in
@COMMANDS@
    esac"""

ZSH = """#compdef @NAME@
# Completes the words of @NAME@ in zsh.

_@NAME@() {
@BODY@
}

if [ "$funcstack[1]" = _@NAME@ ]; then
    _@NAME@ "$@"
else
    compdef _@NAME@ @NAME@
fi
"""

ZSH_COMMANDS = """    local context state state_descr line
    typeset -A opt_args
    _arguments -C \\
@OPTIONS@
        '1:command:->command' \\
        '*::word:->word' && return
    case $state in
        command)
            local -a commands
            commands=(
@COMMANDS@
            )
            _describe command commands ;;
        word)
            case $line[1] in
@WORDS@
            esac ;;
    esac"""


def _filled(text, **parts):
    for name, lines in parts.items():
        text = text.replace(f"@{name}@", "\n".join(lines))
    return text


def _words(options):
    return " ".join(word for entry in options for word in (entry.name, entry.short) if word)


def _bash_value(name, entry):
    """The line of a case that completes the value of an option."""
    words = "|".join(word for word in (entry.name, entry.short) if word)
    if entry.is_file:
        return f"        {words}) _{name}_files; return ;;"
    if entry.choices:
        return f'        {words}) COMPREPLY=($(compgen -W "{" ".join(entry.choices)}" -- "$cur")); return ;;'
    return f"        {words}) return ;;"


def _bash_words(name, described):
    """What sets the words that may stand here, and what else may."""
    return f'words="{_words(described.options)}"; plain={f"_{name}_files" if described.arguments else ":"}'


def bash(name, top, commands):
    """The script for bash."""
    valued = {entry.name: entry for described in (top, *commands.values()) for entry in described.options
              if entry.value}
    values = [_bash_value(name, valued[option]) for option in sorted(valued)]
    if not commands:
        return _filled(BASH, VALUES=values, PLACE=["    " + _bash_words(name, top)], NAME=[name])
    after = [f"        {command}) {_bash_words(name, described)} ;;" for command, described in commands.items()]
    after += [f'        help) words="{" ".join(commands)}"; plain=: ;;',
              f'        *) words="{_words(top.options)} {" ".join(entry.name for entry in top.commands)}"; plain=: ;;']
    place = _filled(BASH_COMMANDS, COMMANDS=after, NAMES=["|".join(entry.name for entry in top.commands)])
    return _filled(BASH, VALUES=values, PLACE=[place], NAME=[name])


def _zsh_text(text):
    """A text as it stands in a specification in single quotes, where brackets and colons part."""
    for mark, written in (("\\", "\\\\"), ("'", "'\\''"), ("[", "\\["), ("]", "\\]"), (":", "\\:")):
        text = text.replace(mark, written)
    return text


def _zsh_option(entry):
    """The specification of an option for zsh's _arguments."""
    action = "_files" if entry.is_file else f"({' '.join(entry.choices)})" if entry.choices else ""
    value = f":{_bare(entry.value)}:{action}" if entry.value else ""
    mark = "=" if entry.value else ""
    if entry.short:
        front = "*" if entry.repeats else f"({entry.short} {entry.name})"
        return f"'{front}'{{{entry.short},{entry.name}{mark}}}'[{_zsh_text(entry.text)}]{value}'"
    return f"'{'*' if entry.repeats else ''}{entry.name}{mark}[{_zsh_text(entry.text)}]{value}'"


def _bare(name):
    """The name of a value without its brackets."""
    return name.strip("<>")


def _zsh_arguments(described, indent):
    """The lines that complete the options and arguments of a help."""
    words = [_zsh_option(entry) for entry in described.options]
    words += [f"'{at}:{_bare(entry.name)}:_files'" for at, entry in enumerate(described.arguments, 1)]
    inner = f" \\\n{indent}    "
    return [f"{indent}_arguments \\", inner.join([f"{indent}    {words[0]}", *words[1:]])]


def _zsh_after(command, described):
    """The lines of a case that complete the words after a command."""
    lines = [f"                {command})", *_zsh_arguments(described, " " * 20)]
    return [*lines[:-1], lines[-1] + " ;;"]


def zsh(name, top, commands):
    """The script for zsh."""
    if not commands:
        return _filled(ZSH, BODY=_zsh_arguments(top, "    "), NAME=[name])
    words = [line for command, described in commands.items() for line in _zsh_after(command, described)]
    words.append(f"                help) _values command {' '.join(commands)} ;;")
    body = _filled(ZSH_COMMANDS, OPTIONS=[f"        {_zsh_option(entry)} \\" for entry in top.options], WORDS=words,
                   COMMANDS=[f"                '{_zsh_text(entry.name)}:{_zsh_text(entry.text)}'"
                             for entry in top.commands])
    return _filled(ZSH, BODY=[body], NAME=[name])


def _fish_text(text):
    return "'" + text.replace("\\", "\\\\").replace("'", "\\'") + "'"


def _fish(name, condition, words):
    return f"complete -c {name}{f' -n {_fish_text(condition)}' if condition else ''} {words}"


def _fish_option(name, condition, entry):
    """The line of an option for fish."""
    words = f"-l {entry.name[2:]}" + (f" -s {entry.short[1:]}" if entry.short else "")
    if entry.is_file:
        words += " -r -F"
    elif entry.choices:
        words += f" -x -a {_fish_text(' '.join(entry.choices))}"
    elif entry.value:
        words += " -x"
    return _fish(name, condition, f"{words} -d {_fish_text(entry.text)}")


def fish(name, top, commands):
    """The script for fish."""
    first = "__fish_use_subcommand" if commands else ""
    lines = [f"# Completes the words of {name} in fish.", *([f"complete -c {name} -f"] if commands else [])]
    lines += [_fish_option(name, first, entry) for entry in top.options]
    lines += [_fish(name, first, f"-a {entry.name} -d {_fish_text(entry.text)}") for entry in top.commands]
    for command, described in commands.items():
        condition = f"__fish_seen_subcommand_from {command}"
        lines += [_fish_option(name, condition, entry) for entry in described.options]
        lines += [_fish(name, condition, "-F") for _ in described.arguments]
    lines += [_fish(name, "__fish_seen_subcommand_from help",
                    f"-a {_fish_text(' '.join(commands))}")] if commands else []
    return "\n".join([*lines, ""])


PLACES = {"bash-completion/completions/@": bash, "zsh/site-functions/_@": zsh, "fish/vendor_completions.d/@.fish": fish}


def main():
    share, *program = sys.argv[1:]
    described = {manual.words.NAME: (roster_help(), {}), **({"auction_cli": read_all(program[0])} if program else {})}
    for name, helps in described.items():
        for place, make in PLACES.items():
            file = pathlib.Path(share) / place.replace("@", name)
            file.parent.mkdir(parents=True, exist_ok=True)
            file.write_text(make(name, *helps), encoding="utf-8")


if __name__ == "__main__":
    main()
