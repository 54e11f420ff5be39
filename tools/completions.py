#!/usr/bin/env python3
"""Writes the completions of sums and of sums-parallel for bash, zsh and fish, from what their help says of commands and
options.
usage: tools/completions.py PROGRAM FOLDER     writes them into FOLDER; PROGRAM is a sums
"""

import os
import sys

from command_help import PARALLEL_COMMANDS, read_parallel, read_program

# what options take one of, if the help does not list it word by word
WORDS = {"--parts": " ".join(str(1 << exponent) for exponent in range(11))}
# what the help calls a file that is the value of an option
FILES = "F", "PARTS"


def taken(option):
    """What an option takes: a `file`, one of words, what nobody can guess (`-`), or nothing."""
    if not option.value:
        return ""
    words = WORDS.get(option.names[-1]) or " ".join(option.words())
    return words or ("file" if option.value in FILES else "-")


def quoted(text):
    """text as one word of a shell, between single quotes"""
    return "'" + text.replace("'", "'\\''") + "'"


def names(commands):
    return " ".join(command.name for command in commands)


def option_names(command):
    return " ".join(name for option in command.options for name in option.names)


# ---- bash

BASH_HEAD = """\
# Completion for bash of the program sums.

# Offers those of the words that begin with the one that is being written.
_sums_words() {{
    mapfile -t COMPREPLY < <(compgen -W "$1" -- "$2")
}}

# Leaves the rest to readline's completion of file names.
_sums_files() {{
    compopt -o default
}}

_sums() {{
    local word=${{COMP_WORDS[COMP_CWORD]}} before=${{COMP_WORDS[COMP_CWORD - 1]}} command=${{COMP_WORDS[1]}} i
    COMPREPLY=()
    if ((COMP_CWORD == 1)); then
        _sums_words '{first}' "$word"
        return
    fi
    # --key-file=F comes as three words
    if [[ $word == = ]]; then
        word=
    elif [[ $before == = ]]; then
        before=${{COMP_WORDS[COMP_CWORD - 2]}}
    fi
    # after -- all words are files
    for ((i = 2; i < COMP_CWORD; i++)); do
        if [[ ${{COMP_WORDS[i]}} == -- ]]; then
            _sums_files
            return
        fi
    done
    case $command:$before in
"""


def bash_values(command):
    """the lines that say what follows each option of a command"""
    for takes in dict.fromkeys(filter(None, map(taken, command.options))):
        found = " | ".join(f"{command.name}:{name}" for option in command.options if taken(option) == takes
            for name in option.names)
        words = f"_sums_words {quoted(takes)} \"$word\"; "
        does = {"file": "_sums_files; ", "-": ""}.get(takes, words)
        yield f"        {found}) {does}return ;;\n"


def bash_words(command, commands):
    """the lines that say what the other words of a command are"""
    if command.takes == "commands":
        yield f"        {command.name}:*)\n"
        yield f"            if ((COMP_CWORD == 2)); then _sums_words {quoted(names(commands))} \"$word\"; fi ;;\n"
        return
    begins = f"{command.name}:-*" if command.takes else f"{command.name}:-* | {command.name}:"
    yield f"        {begins})\n            _sums_words {quoted(option_names(command))} \"$word\" ;;\n"


def bash(program, commands):
    text = BASH_HEAD.format(first=names(commands) + " " + option_names(program))
    for command in commands:
        text += "".join(bash_values(command))
    text += "    esac\n    case $command:$word in\n"
    for command in commands:
        text += "".join(bash_words(command, commands))
    takers = " | ".join(f"{command.name}:*" for command in commands if command.takes in ("file", "files"))
    return text + f"        {takers}) _sums_files ;;\n    esac\n}}\n\ncomplete -F _sums sums\n"


# ---- zsh

ZSH_HEAD = """\
#compdef sums
# Completion for zsh of the program sums.

_sums() {{
    local curcontext=$curcontext state state_descr line
    typeset -A opt_args
    local -a commands=(
{commands}
    )
    _arguments -C {options} \\
        '1:command:->command' '*::word:->words' && return
    case $state in
        command) _describe -t commands command commands ;;
        words)
            case $words[1] in
"""


def zsh_text(text):
    """text in a spec of _arguments, where brackets and : have a meaning"""
    return "".join("\\" + letter if letter in ":[]" else letter for letter in text)


def zsh_option(option):
    """the specs of an option, one for each of its names; nothing stands beside help and the version"""
    text, takes = zsh_text(option.about()), taken(option)
    value = {"": "", "file": ":file:_files", "-": f":{text}:"}.get(takes, f":value:({takes})")
    ends = "(- *)" if option.names[-1] in ("--help", "--version") else ""
    for name in option.names:
        # the value follows it, or stands in the same word
        joint = ("=" if name.startswith("--") else "+") if takes else ""
        yield quoted(f"{ends}{name}{joint}[{text}]{value}")


def zsh_options(command):
    return [spec for option in command.options for spec in zsh_option(option)]


def zsh_command(command):
    if command.takes == "commands":
        return f"                {command.name}) ((CURRENT == 2)) && _describe -t commands command commands ;;\n"
    specs = zsh_options(command) + {"files": ["'*:file:_files'"], "file": ["'1:file:_files'"]}.get(command.takes, [])
    lines = " \\\n                        ".join(["_arguments -S", *specs])
    return f"                {command.name})\n                    {lines} ;;\n"


def zsh(program, commands):
    about_each = "\n".join("        " + quoted(f"{command.name}:{command.about}") for command in commands)
    text = ZSH_HEAD.format(commands=about_each, options=" ".join(zsh_options(program)))
    for command in commands:
        text += zsh_command(command)
    return text + "            esac ;;\n    esac\n}\n\n_sums \"$@\"\n"


# ---- fish

FISH_HEAD = """\
# Completion for fish of the program sums.

# Whether the word that is being written is the first.
function __sums_is_first
    test (count (commandline -opc)) -eq 1
end

# Whether the command is this one.
function __sums_command_is
    set -l words (commandline -opc)
    test (count $words) -ge 2; and test "$words[2]" = $argv[1]
end

# Whether the word that is being written is the one after this command.
function __sums_is_behind
    __sums_command_is $argv[1]; and test (count (commandline -opc)) -eq 2
end

complete -c sums -f
"""


def fish_option(begin, option):
    said = " ".join("-l " + name[2:] if name.startswith("--") else "-s " + name[1:] for name in option.names)
    takes = taken(option)
    value = {"": "", "-": " -x", "file": " -r -F"}.get(takes, f" -x -a {quoted(takes)}")
    return f"{begin} {said}{value} -d {quoted(option.about())}\n"


def fish_command(begin, command):
    """the lines of a command, which have this beginning"""
    text = "".join(fish_option(begin, option) for option in command.options)
    return text + (f"{begin} -F\n" if command.takes else "")


def fish(program, commands):
    begin = "complete -c sums -n __sums_is_first"
    text = FISH_HEAD + "".join(fish_option(begin, option) for option in program.options)
    for command in commands:
        text += f"{begin} -a {command.name} -d {quoted(command.about)}\n"
    for command in commands:
        if command.takes == "commands":
            text += f"complete -c sums -n '__sums_is_behind {command.name}' -a {quoted(names(commands))}\n"
        else:
            text += fish_command(f"complete -c sums -n '__sums_command_is {command.name}'", command)
    return text


# ---- sums-parallel: its own options, one of its commands, and then the words of sums

BASH_PARALLEL = """\
# Completion for bash of the program sums-parallel.

_sums_parallel() {{
    local word=${{COMP_WORDS[COMP_CWORD]}} i=1
    declare -F _sums > /dev/null || _completion_loader sums
    COMPREPLY=()
    while ((i < COMP_CWORD)); do
        case ${{COMP_WORDS[i]}} in
            {valued})
                # -j=N comes as three words
                [[ ${{COMP_WORDS[i + 1]}} != = ]] || ((i += 1))
                ((i += 2)) ;;
            -*) ((i += 1)) ;;
            *) break ;;
        esac
    done
    # the value of an option is nothing that anybody could guess
    if ((i == COMP_CWORD)); then
        _sums_words '{words}' "$word"
    elif ((i < COMP_CWORD)); then
        COMP_WORDS=(sums "${{COMP_WORDS[@]:i}}")
        ((COMP_CWORD -= i - 1))
        _sums
    fi
}}

complete -F _sums_parallel sums-parallel
"""

ZSH_PARALLEL = """\
#compdef sums-parallel
# Completion for zsh of the program sums-parallel.

_sums_parallel() {{
    local curcontext=$curcontext state state_descr line
    typeset -A opt_args
    _arguments -C -S {options} \\
        '1:command:({commands})' '*::word:->words' && return
    if [[ $state == words ]]; then
        words=(sums "${{words[@]}}")
        ((CURRENT += 1))
        _sums
    fi
}}

_sums_parallel "$@"
"""

FISH_PARALLEL = """\
# Completion for fish of the program sums-parallel.

# Whether the first word that is neither an option nor its value is this command, or none if none is named.
function __sums_parallel_command_is
    set -l words (commandline -opc)
    set -e words[1]
    while string match -q -- '-*' $words[1]
        if contains -- $words[1] {valued}
            set -e words[1]
        end
        set -e words[1]
    end
    test "$words[1]" = "$argv[1]"
end

complete -c sums-parallel -f
"""


def bash_parallel(front, commands):
    valued = " | ".join(name for option in front.options for name in option.names if option.value)
    return BASH_PARALLEL.format(valued=valued, words=f"{PARALLEL_COMMANDS} {option_names(front)}")


def zsh_parallel(front, commands):
    return ZSH_PARALLEL.format(commands=PARALLEL_COMMANDS, options=" \\\n        ".join(zsh_options(front)))


def fish_parallel(front, commands):
    valued = " ".join(name for option in front.options for name in option.names if option.value)
    text = FISH_PARALLEL.format(valued=valued)
    begin = "complete -c sums-parallel -n __sums_parallel_command_is"
    text += "".join(fish_option(begin, option) for option in front.options)
    text += f"{begin} -a '{PARALLEL_COMMANDS}'\n"
    for command in commands:
        if command.name in PARALLEL_COMMANDS.split():
            text += fish_command(f"complete -c sums-parallel -n '__sums_parallel_command_is {command.name}'", command)
    return text


def main(words):
    if len(words) != 2:
        sys.exit(__doc__.splitlines()[2])
    program, commands = read_program(words[0])
    front = read_parallel()
    texts = {
        "sums.bash": bash(program, commands), "_sums": zsh(program, commands), "sums.fish": fish(program, commands),
        "sums-parallel.bash": bash_parallel(front, commands), "_sums-parallel": zsh_parallel(front, commands),
        "sums-parallel.fish": fish_parallel(front, commands),
    }
    os.makedirs(words[1], exist_ok=True)
    for name, text in texts.items():
        with open(os.path.join(words[1], name), "w", encoding="utf-8") as file:
            file.write(text)


if __name__ == "__main__":
    main(sys.argv[1:])
