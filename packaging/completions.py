# SPDX-License-Identifier: MIT OR Apache-2.0
# The completions of bash, zsh and fish, written out of what the commands say of themselves.
from typing import Iterable

from words import Command, Option, Tool

HEAD = """{first}# SPDX-License-Identifier: MIT OR Apache-2.0
# Completion of {shell} for playcheck and playcheck-ansible. Made by packaging/make_pages.py: change that.
"""
BASH = """
_playcheck_words() {
    mapfile -t COMPREPLY < <(compgen -W "$1" -- "$2")
}

_playcheck_files() {
    mapfile -t COMPREPLY < <(compgen -f -- "$1")
    compopt -o filenames 2>/dev/null
}

_playcheck_folders() {
    mapfile -t COMPREPLY < <(compgen -d -- "$1")
    compopt -o filenames 2>/dev/null
}

# Sets the word that is completed, the one before it, and the command; bash makes a word of `=` in `--format=json`.
_playcheck_place() {
    word=${COMP_WORDS[COMP_CWORD]}
    before=${COMP_WORDS[COMP_CWORD - 1]}
    command=${COMP_WORDS[1]}
    if [ "$word" = = ]; then
        word=
    elif [ "$before" = = ]; then
        before=${COMP_WORDS[COMP_CWORD - 2]}
    fi
}
"""


def function_of(tool: Tool) -> str:
    return "_" + tool.name.replace("-", "_")


def options_of(tool: Tool) -> list[Option]:
    """The options of all commands, each once."""
    return list(dict.fromkeys(option for command in tool.commands for option in command.options))


def names_of(options: Iterable[Option]) -> list[str]:
    return [name for option in options for name in option.names]


# bash.


def bash(tools: Iterable[Tool], codes: dict[str, str]) -> str:
    functions = [bash_function(tool, codes) for tool in tools]
    bound = [f"complete -F {function_of(tool)} {tool.name}\n" for tool in tools]
    return HEAD.format(first="", shell="bash") + BASH + "".join(functions) + "\n" + "".join(bound)


def bash_words(words: Iterable[str]) -> str:
    return f'_playcheck_words "{" ".join(words)}" "$word"'


def bash_function(tool: Tool, codes: dict[str, str]) -> str:
    first = [command.name for command in tool.commands] + names_of(tool.options)
    values = "".join(bash_value(option) for option in options_of(tool) if option.takes() in ("words", "folder", "text"))
    words = "".join(bash_command(tool, command, codes) for command in tool.commands)
    return (f"\n{function_of(tool)}() {{\n    local word before command\n    _playcheck_place\n"
            f'    if [ "$COMP_CWORD" = 1 ]; then\n        {bash_words(first)}\n        return\n    fi\n'
            f"    case $before in\n{values}    esac\n"
            f'    case $command:$word in\n{words}    *) _playcheck_files "$word" ;;\n    esac\n}}\n')


def bash_value(option: Option) -> str:
    """What completes the value of an option, but for a file."""
    done = {"words": bash_words(option.choices), "folder": '_playcheck_folders "$word"', "text": "COMPREPLY=()"}
    return f"    {' | '.join(option.names)})\n        {done[option.takes()]}\n        return\n        ;;\n"


def bash_command(tool: Tool, command: Command, codes: dict[str, str]) -> str:
    """The words of a command: its options, and codes or commands where it takes these."""
    further = {"code": list(codes), "command": [one.name for one in tool.commands]}.get(command.takes(), [])
    lines = f"    {command.name}:-*) {bash_words(names_of(command.options))} ;;\n" if command.options else ""
    return lines + (f"    {command.name}:*) {bash_words(further)} ;;\n" if further else "")


# zsh.


def zsh(tools: Iterable[Tool], codes: dict[str, str]) -> str:
    functions = [zsh_function(tool, codes) for tool in tools]
    chosen = [f"{tool.name}) {zsh_name(tool)} \"$@\" ;;\n" for tool in tools]
    head = HEAD.format(first="#compdef playcheck playcheck-ansible\n", shell="zsh")
    return head + "".join(functions) + "\ncase $service in\n" + "".join(chosen) + "esac\n"


def zsh_name(tool: Tool) -> str:
    """Of its own: the file is the function `_playcheck`."""
    return f"{function_of(tool)}_command"


def zsh_text(text: str) -> str:
    """A text between apostrophes, in brackets or before a colon."""
    for sign in "\\[]:":
        text = text.replace(sign, "\\" + sign)
    return text.replace("'", "'\\''")


def zsh_pairs(pairs: Iterable[tuple[str, str]]) -> str:
    return " ".join(f"'{name}:{zsh_text(told)}'" for name, told in pairs)


def zsh_option(option: Option) -> str:
    done = {"words": f":value:({' '.join(option.choices)})", "folder": ":folder:_files -/", "text": ":text: ",
            "file": ":file:_files", "": ""}[option.takes()]
    name = option.names[0] if len(option.names) == 1 else f"{{{','.join(option.names)}}}"
    before = "'*'" if option.takes() else f"'({' '.join(option.names)})'"
    return f"{before}{name}'[{zsh_text(option.help)}]{done}'"


def zsh_command(tool: Tool, command: Command, codes: dict[str, str]) -> str:
    argument = {"code": "'1: :->code'", "file": "'*:file:_files'",
                "command": f"'1:command:({' '.join(one.name for one in tool.commands)})'"}[command.takes()]
    words = [*(zsh_option(option) for option in command.options), argument]
    after = zsh_codes(codes) if command.takes() == "code" else ""
    return f"    {command.name})\n        _arguments " + " \\\n            ".join(words) + f"\n{after}        ;;\n"


def zsh_codes(codes: dict[str, str]) -> str:
    """Offers the codes with their titles where a word of them is wanted."""
    return (f"        if [[ $state = code ]]; then\n            codes=({zsh_pairs(codes.items())})\n"
            "            _describe code codes\n        fi\n")


def zsh_function(tool: Tool, codes: dict[str, str]) -> str:
    options = " \\\n        ".join(zsh_option(option) for option in tool.options)
    commands = zsh_pairs((command.name, command.help) for command in tool.commands)
    cases = "".join(zsh_command(tool, command, codes) for command in tool.commands)
    return (f"\n{zsh_name(tool)}() {{\n    local curcontext=$curcontext state\n    local -a commands codes\n"
            f"    _arguments -C {options} \\\n        '1: :->command' '*:: :->words' && return\n"
            f"    if [[ $state = command ]]; then\n        commands=({commands})\n"
            "        _describe command commands\n        return\n    fi\n"
            f"    case $words[1] in\n{cases}    esac\n}}\n")


# fish.


def fish(tools: Iterable[Tool], codes: dict[str, str]) -> str:
    return HEAD.format(first="", shell="fish") + "".join(fish_lines(tool, codes) for tool in tools)


def fish_text(text: str) -> str:
    return "'" + text.replace("\\", "\\\\").replace("'", "\\'") + "'"


def fish_option(start: str, option: Option) -> str:
    names = "".join(f" -s {name[1:]}" if len(name) == 2 else f" -l {name[2:]}" for name in option.names)
    done = {"words": f" -x -a {fish_text(' '.join(option.choices))}", "file": " -r -F", "text": " -x", "": "",
            "folder": " -x -a '(__fish_complete_directories)'"}[option.takes()]
    told = f" -d {fish_text(option.help)}" if option.help else ""
    return f"{start}{names}{done}{told}\n"


def fish_argument(tool: Tool, command: Command, codes: dict[str, str]) -> list[str]:
    """What completes a command's words: each code, each command, or files."""
    if command.takes() == "code":
        return [f" -a {code} -d {fish_text(title)}\n" for code, title in codes.items()]
    if command.takes() == "command":
        return [f" -a {fish_text(' '.join(one.name for one in tool.commands))}\n"]
    return [" -F\n"]


def fish_lines(tool: Tool, codes: dict[str, str]) -> str:
    start = f"complete -c {tool.name}"
    lines = [f"\n{start} -f\n"]
    first = f"{start} -n __fish_use_subcommand"
    lines += [f"{first} -a {command.name} -d {fish_text(command.help)}\n" for command in tool.commands]
    lines += [fish_option(first, option) for option in tool.options]
    for command in tool.commands:
        within = f"{start} -n '__fish_seen_subcommand_from {command.name}'"
        lines += [within + argument for argument in fish_argument(tool, command, codes)]
        lines += [fish_option(within, option) for option in command.options]
    return "".join(lines)
