"""What completes a line of alpha in bash, zsh and fish: the commands and their options, out of the tables of
docs/commands.md by which tools/usage.py prints the usage."""
import re
from collections import namedtuple

import usage

# `values` are the words of which one must follow, or what else must: N, NAME, FILE; none of an option without a value.
Option = namedtuple("Option", "name values means")
Command = namedtuple("Command", "name means options")
SPAN = re.compile(r"`([^`]+)`")
WITHIN = re.compile(r"\[(--\w+) (\w+)\]")
LEFT_OUT = re.compile(r"\bbut ((?:`--\w+`(?:, | and )?)+)")


def options_of_run(rows):
    for words, means, _ in rows:
        first, *others = SPAN.findall(words)
        name, *value = first.split()
        yield Option(name, value + others,
                     usage.plain(re.split(r": |\. ", means.removeprefix("needs `--imprecise`: "))[0]))


def commands():
    """Each command once, with what its row says of it in short."""
    rows, of_run = usage.tables_under("The words")[:2]
    of_run, found = [*options_of_run(of_run)], {}
    for words, means in rows:
        name, *rest = words.strip("`").split(maxsplit=1)
        options = [Option(*pair, "") for pair in ((name, [value]) for name, value in WITHIN.findall("".join(rest)))]
        if "[OPTIONS]" in "".join(rest):
            without = SPAN.findall(" ".join(LEFT_OUT.findall(means)))
            options += [it for it in of_run if it.name not in without]
        found.setdefault(name, Command(name, usage.in_short(means), options))
    return [*found.values()]


def choices(option):
    """The words of which one must follow an option, none where it is a number, a name or a file."""
    return [it for it in option.values if not it.isupper()]


def bash():
    found = commands()
    cases = "".join(f"    {it.name}) words='{' '.join(option.name for option in it.options)}' ;;\n" for it in found
                    if it.options)
    values = "".join(f"    {name}) words='{words}' ;;\n" for name, words in sorted(
        {(option.name, " ".join(choices(option))) for it in found for option in it.options if choices(option)}))
    return f"""\
# What completes a line of alpha in bash. Where nothing of it fits, files do.
_alpha() {{
    local word=${{COMP_WORDS[COMP_CWORD]}} before=${{COMP_WORDS[COMP_CWORD - 1]}} words=
    if [ "$before" = = ]; then
        before=${{COMP_WORDS[COMP_CWORD - 2]}}
    elif [ "$word" = = ]; then
        word=
    fi
    case $word in
    -*) case ${{COMP_WORDS[1]}} in
{cases.replace('    ', '        ')}        esac ;;
    esac
    case $before in
{values}    esac
    [ "$COMP_CWORD" -ne 1 ] || words='{' '.join(it.name for it in found)}'
    mapfile -t COMPREPLY < <(compgen -W "$words" -- "$word")
}}
complete -o default -F _alpha alpha
"""


def quoted(text):
    """A text in single quotes of a shell."""
    return "'" + text.replace("'", "'\\''") + "'"


def zsh_option(option):
    """An option as `_arguments` takes it, with what must follow and how that is completed."""
    means = re.sub(r"([\[\]:\\])", r"\\\1", option.means)
    spelled = option.name + ("=" if option.values else "") + (f"[{means}]" if means else "")
    if option.values:
        action = f"({' '.join(choices(option))})" if choices(option) else "_files" if option.values == ["FILE"] else " "
        spelled += f":{'word' if choices(option) else option.values[0]}:{action}"
    return quoted(spelled)


def zsh():
    found = commands()
    described = "\n".join("    " + quoted(f"{it.name}:{it.means}") for it in found)
    cases = "\n".join(f"{it.name}) _arguments {' '.join(map(zsh_option, it.options))} '*:FILE:_files' ;;"
                      for it in found if it.options)
    return f"""\
#compdef alpha
# What completes a line of alpha in zsh.
local -a commands
commands=(
{described}
)
if (( CURRENT == 2 )); then
    _describe command commands
    return
fi
shift words
(( CURRENT-- ))
case $words[1] in
{cases}
*) _files ;;
esac
"""


def fish():
    lines = ["# What completes a line of alpha in fish."]
    for it in commands():
        lines.append(f"complete -c alpha -f -n __fish_use_subcommand -a {it.name} -d {quoted(it.means)}")
        for option in it.options:
            takes = f" -x -a {quoted(' '.join(choices(option)))}" if choices(option) else " -r" if option.values else ""
            means = f" -d {quoted(option.means)}" if option.means else ""
            lines.append(f"complete -c alpha -n '__fish_seen_subcommand_from {it.name}' -l "
                         f"{option.name.lstrip('-')}{takes}{means}")
    return "\n".join(lines) + "\n"
