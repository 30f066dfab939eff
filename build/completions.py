#!/usr/bin/env python3
"""Writes the completions of bash, zsh and fish from the program's table of commands.

    build/completions.py           writes completions/cqf.bash, completions/_cqf and completions/cqf.fish
    build/completions.py --check   prints the name of each of these files that differs from what would be written, and writes nothing

The table is crates/cqf_program_words/src/commands.rt and options.rt. The exit status is 1 if a file differs or the table can't be read.
"""
import re
import sys
from dataclasses import dataclass
from pathlib import Path
from string import Template

sys.path.insert(0, str(Path(__file__).resolve().parent.parent))
from common import TOP
from common.running import write
from common.words import Reader

TABLE = TOP / "crates/cqf_program_words/src"
MADE = "Made by build/completions.py from the program's table of commands; changes here are lost."
HELP = "print help"


class Text(Template):
    """A text of a shell, with names after `@`, which shells don't use for their variables."""

    delimiter = "@"


BASH = Text("""# Completes the words of cqf in bash.
# @made

_cqf() {
    local IFS=$' \\t\\n' word=${COMP_WORDS[COMP_CWORD]} before='' own='' choices='' index option
    COMPREPLY=()
    ((COMP_CWORD > 0)) && before=${COMP_WORDS[COMP_CWORD - 1]}
    # --format=tc is three words here
    if [[ $word == '=' ]]; then
        word=''
    elif [[ $before == '=' ]]; then
        before=${COMP_WORDS[COMP_CWORD - 2]}
    fi
    if ((COMP_CWORD == 1)); then
        mapfile -t COMPREPLY < <(compgen -W '@names help --help --version' -- "$word")
        return
    fi
    case ${COMP_WORDS[1]} in
    help)
        ((COMP_CWORD > 2)) || mapfile -t COMPREPLY < <(compgen -W '@names' -- "$word")
        return
        ;;
@own
    *) return ;;
    esac
    for ((index = 2; index < COMP_CWORD; index++)); do
        # all words after this one are files
        if [[ ${COMP_WORDS[index]} == -- ]]; then
            compopt -o default
            return
        fi
    done
    case $before in
@chosen
    @free) return ;;
    esac
    if [[ $choices ]]; then
        mapfile -t COMPREPLY < <(compgen -W "$choices" -- "$word")
    elif [[ $word == -* ]]; then
        # each option is given once, unless it may be given again
        for option in $own; do
            [[ " ${COMP_WORDS[*]:2:COMP_CWORD-2} " == *" $option "* && ' @again ' != *" $option "* ]] || choices+=" $option"
        done
        mapfile -t COMPREPLY < <(compgen -W "$choices" -- "$word")
    else
        compopt -o default
    fi
}

complete -F _cqf cqf
""")
ZSH = Text("""#compdef cqf
# Completes the words of cqf in zsh.
# @made

_cqf() {
    local -a commands=(
@described
        'help:print the help of a command'
    )
    if ((CURRENT == 2)); then
        if [[ $PREFIX == -* ]]; then
            _arguments @asked '(-V --version)'{-V,--version}'[print the version]'
        else
            _describe -t commands command commands
        fi
        return
    fi
    local -a both=('(- *)--help[@help]' '*:file:_files')
    local command=$words[2]
    shift words
    ((CURRENT--))
    case $command in
    help)
        ((CURRENT > 2)) || _describe -t commands command commands
        ;;
@cases
    esac
}

_cqf "$@@"
""")
FISH = Text("""# Completes the words of cqf in fish.
# @made

function __cqf_wants_command
    test (count (commandline -opc)) -eq 1
end

function __cqf_is
    set -l words (commandline -opc)
    test (count $words) -gt 1; and test $words[2] = $argv[1]
end

@lines
""")


@dataclass(frozen=True)
class Option:
    """An option: its word, its description, the name and choices of its value, if it has one; its letter, if it has one; and whether it may be
    given several times."""

    word: str
    about: str
    value: str
    choices: tuple[str, ...]
    letter: str
    is_repeated: bool


@dataclass(frozen=True)
class Command:
    name: str
    about: str
    options: tuple[Option, ...]


def body_of(text, start):
    """Returns the text from a line to the end of its block, a closing brace with the same indentation as the line."""
    found = re.search(rf"^( *){start}.*?^\1\}}", text, re.MULTILINE | re.DOTALL)
    if not found:
        sys.exit(f"completions: {TABLE} has no {start!r}")
    return found[0]


def cases_of(body, kind, value):
    """Returns the value of a `match` for each case of an enum, by a pattern with a group. Takes the first arm without a guard."""
    cases = {}
    for names, guard, given in re.findall(rf"((?:\|? *{kind}::\w+\s*)+)( if [^=]*)?=>\s*{value}", body):
        for name in re.findall(rf"{kind}::(\w+)", names):
            if not guard:
                cases.setdefault(name, given)
    return cases


def choices_of(about):
    """Splits an option's text into its description and the words allowed as its value, which follow a colon if there are any."""
    found = re.fullmatch(r"(.*): (\w+(?:, \w+)* or \w+)", about)
    return (found[1], tuple(re.split(", | or ", found[2]))) if found else (about, ())


def read_options():
    """Returns the options by their cases."""
    text = (TABLE / "options.rt").read_text()
    cases = re.findall(r"^    (\w+),$", body_of(text, r"pub\(crate\) enum CommandOption"), re.MULTILINE)
    names = cases_of(body_of(text, "fn texts"), "CommandOption", r'long!\("([^"]+)"\)')
    takes = cases_of(body_of(text, "fn takes_value"), "CommandOption", r"(true|false)")
    values = cases_of(body_of(text, "fn value"), "CommandOption", r'"([^"]*)"')
    abouts = cases_of(body_of(text, "fn about"), "CommandOption", r'"([^"]+)"')
    letters = cases_of(body_of(text, "fn bare_argument"), "CommandOption", r"letter_flag\(alloc, '(.)'")
    repeated = cases_of(body_of(text, "fn bare_argument"), "CommandOption", r"(repeated_option)\(")
    options = {}
    for case in cases:
        if case not in names or case not in takes or case not in abouts or (takes[case] == "true") != bool(values.get(case)):
            sys.exit(f"completions: options.rt says too little of {case}")
        about, choices = choices_of(abouts[case])
        options[case] = Option(f"--{names[case]}", about, values[case], choices, letters.get(case, ""), case in repeated)
    return options


def read_commands():
    """Returns the commands, in the order of the help text."""
    options = read_options()
    text = (TABLE / "commands.rt").read_text()
    order = re.findall(r"Subcommand::(\w+),", re.search(r"^const COMMANDS: [^=]*=(.*?);", text, re.MULTILINE | re.DOTALL)[1])
    names = cases_of(body_of(text, "fn name"), "Subcommand", r'"([^"]+)"')
    abouts = cases_of(body_of(text, "fn about"), "Subcommand", r'"([^"]+)"')
    given = cases_of(body_of(text, "fn options"), "Subcommand", r"&\[([^\]]*)\]")
    commands = []
    for case in order:
        if case not in names or case not in abouts or case not in given:
            sys.exit(f"completions: commands.rt says too little of {case}")
        own = re.findall(r"CommandOption::(\w+)", given[case])
        commands.append(Command(names[case], abouts[case], tuple(options[option] for option in own)))
    if not commands or {option for command in commands for option in command.options} != set(options.values()):
        sys.exit("completions: the table has no commands, or options that none has")
    return commands


def options_of(commands):
    """Returns all options with a value, each once, in the order of commands."""
    return list(dict.fromkeys(option for command in commands for option in command.options if option.value))


def words_of(command):
    """Returns the words that give the command's options."""
    return [word for option in command.options for word in ([f"-{option.letter}"] if option.letter else []) + [option.word]]


def for_bash(commands):
    names = " ".join(command.name for command in commands)
    own = "\n".join(f"    {command.name}) own='{' '.join(words_of(command))} --help' ;;" for command in commands)
    again = " ".join(option.word for option in options_of(commands) if option.is_repeated)
    chosen = "\n".join(f"    {option.word}) choices='{' '.join(option.choices)}' ;;" for option in options_of(commands) if option.choices)
    free = "|".join(option.word for option in options_of(commands) if not option.choices)
    return BASH.substitute(made=MADE, names=names, own=own, again=again, chosen=chosen, free=free)


def for_zsh(commands):
    def quoted(text):
        return "'" + text.replace("'", "'\\''") + "'"

    def spec(option):
        about = re.sub(r"([\[\]:])", r"\\\1", option.about)
        value = f":{option.value}:{'(' + ' '.join(option.choices) + ')' if option.choices else ' '}" if option.value else ""
        if option.letter:
            both = f"-{option.letter}", option.word
            return f"{quoted('(' + ' '.join(both) + ')')}{{{','.join(both)}}}{quoted(f'[{about}]')}"
        return quoted(f"{'*' if option.is_repeated else ''}{option.word}{'=' if option.value else ''}[{about}]{value}")

    described = "\n".join("        " + quoted(f"{command.name}:{command.about.replace(':', chr(92) + ':')}") for command in commands)
    cases = "\n".join(
        f"    {command.name})\n        _arguments -S {' '.join(map(spec, command.options))} $both\n        ;;" for command in commands
    )
    asked = quoted(f"--help[{HELP}]")
    return ZSH.substitute(made=MADE, help=HELP, described=described, cases=cases, asked=asked)


def for_fish(commands):
    def quoted(text):
        return "'" + text.replace("\\", "\\\\").replace("'", "\\'") + "'"

    lines = []
    for command in commands:
        lines.append(f"complete -c cqf -f -n __cqf_wants_command -a {command.name} -d {quoted(command.about)}")
    lines.append("complete -c cqf -f -n __cqf_wants_command -a help -d 'print the help of a command'")
    lines.append(f"complete -c cqf -n __cqf_wants_command -l help -d {quoted(HELP)}")
    lines.append("complete -c cqf -n __cqf_wants_command -s V -l version -d 'print the version'")
    lines.append(f"complete -c cqf -f -n '__cqf_is help' -a {quoted(' '.join(command.name for command in commands))}")
    for command in commands:
        for option in command.options:
            value = f" -x{' -a ' + quoted(' '.join(option.choices)) if option.choices else ''}" if option.value else ""
            letter = f" -s {option.letter}" if option.letter else ""
            lines.append(f"complete -c cqf -n '__cqf_is {command.name}'{letter} -l {option.word[2:]}{value} -d {quoted(option.about)}")
        lines.append(f"complete -c cqf -n '__cqf_is {command.name}' -l help -d {quoted(HELP)}")
    return FISH.substitute(made=MADE, lines="\n".join(lines))


def main():
    reader = Reader(__doc__)
    reader.add_argument("--check", action="store_true")
    is_check = reader.parse_args().check
    commands = read_commands()
    differs = False
    for name, text in (("cqf.bash", for_bash(commands)), ("_cqf", for_zsh(commands)), ("cqf.fish", for_fish(commands))):
        path = TOP / "completions" / name
        if not is_check:
            write(path, text)
        elif not path.exists() or path.read_text() != text:
            differs = True
            print(f"completions/{name}: not what build/completions.py writes of the program's commands")
    return differs


sys.exit(main())
