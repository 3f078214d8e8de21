"""Completions of bash, zsh and fish, made from what the program tells of itself."""
from told import WORDS

NOTE = "# made from what `dgc --help` prints"

BASH = """{note}
_dgc() {{
    local word=${{COMP_WORDS[COMP_CWORD]}} before=${{COMP_WORDS[COMP_CWORD-1]}} command=${{COMP_WORDS[1]}} words
    COMPREPLY=()
    [ "$word" = = ] && word=
    [ "$before" = = ] && before=${{COMP_WORDS[COMP_CWORD-2]}}
    [ "$COMP_CWORD" -eq 1 ] && command=
    case "$command $before" in
{values}
        *)
            case "$command" in
{commands}
            esac
            # Elsewhere a file is given, and bash itself completes its name.
            [[ -z $command || $word == -* || $command == {no_file} ]] || return
            ;;
    esac
    compopt +o default 2>/dev/null
    mapfile -t COMPREPLY < <(compgen -W "$words" -- "$word")
}}
complete -o default -F _dgc dgc
"""

ZSH = """#compdef dgc
{note}
_dgc() {{
    local curcontext="$curcontext" context state state_descr line
    typeset -A opt_args
    local -a commands
    commands=(
{names}
    )
    _arguments -C {top} '1:command:->command' '*::argument:->argument'
    case $state in
        command) _describe command commands ;;
        argument)
            case $line[1] in
{commands}
            esac
            ;;
    esac
}}
_dgc "$@"
"""

FISH = """{note}
function __dgc_command
    set -l words (commandline -opc)
    if test (count $argv) -eq 0
        test (count $words) -eq 1
    else
        test (count $words) -gt 1; and contains -- $words[2] $argv
    end
end
complete -c dgc -f
{lines}
"""


def words_of(told, argument):
    """The words that may be given as an argument that is no file."""
    return told.codes if argument == "CODE" else None


def spelled(options):
    return [word for option in options for word in (option.long, option.short) if word]


# ---- bash

def bash_values(told):
    """The cases of the options that have a value: by the command and the word before."""
    cases = {}
    for name, help in told.helps.items():
        for option in help.options:
            if option.value in WORDS:
                done = f'words="{" ".join(WORDS[option.value])}"'
            elif option.value:
                done = "return" if option.value == "FILE" else "words="
            else:
                continue
            cases.setdefault(done, []).append(f'"{name} {option.long}"')
    return "\n".join(f"        {' | '.join(words)}) {done} ;;" for done, words in cases.items())


def bash(told):
    names = " ".join(command.name for command in told.top.commands)
    commands = [("", f"{names} {' '.join(spelled(told.top.options))}"), ("help", names)]
    no_file = ["help"]
    for name, help in told.helps.items():
        words = [word for argument in help.arguments for word in words_of(told, argument.name) or []]
        no_file += [name] * bool(words)
        commands.append((name, " ".join(words + spelled(help.options))))
    return BASH.format(
        note=NOTE, values=bash_values(told), no_file=f"@({'|'.join(no_file)})",
        commands="\n".join(f'                "{name}") words="{words}" ;;' for name, words in commands),
    )


# ---- zsh

def zsh_text(text, marks="[]:"):
    """A text between single quotes, with these marks taken as they are."""
    for mark in "\\" + marks:
        text = text.replace(mark, "\\" + mark)
    return text.replace("'", "'\\''")


def zsh_option(option):
    after = f"{option.value}:" if option.value else ""
    if option.value in WORDS:
        after += f"({' '.join(WORDS[option.value])})"
    elif option.value == "FILE":
        after += "_files"
    text = f"[{zsh_text(option.text)}]" + (f":{after}" if after else "")
    names = [f"{option.long}=" if option.value else option.long, option.short]
    return " ".join(f"'{name}{text}'" for name in names if name)


def zsh_argument(told, place, argument):
    words = words_of(told, argument.name)
    return f"'{place}:{argument.name}:{'(' + ' '.join(words) + ')' if words else '_files'}'"


def zsh(told):
    cases = []
    for name, help in told.helps.items():
        words = [zsh_option(option) for option in help.options]
        words += [zsh_argument(told, place, argument) for place, argument in enumerate(help.arguments, 1)]
        cases.append(f"                {name}) _arguments {' '.join(words)} ;;")
    cases.append("                help) _describe command commands ;;")
    return ZSH.format(
        note=NOTE, top=" ".join(zsh_option(option) for option in told.top.options), commands="\n".join(cases),
        names="\n".join(f"        '{command.name}:{zsh_text(command.text, ':')}'" for command in told.top.commands),
    )


# ---- fish

def fish_text(text):
    return "'" + text.replace("\\", "\\\\").replace("'", "\\'") + "'"


def fish_option(where, option):
    line = f"complete -c dgc -n {where} -l {option.long[2:]}" + (f" -s {option.short[1:]}" if option.short else "")
    if option.value in WORDS:
        line += f" -x -a {fish_text(' '.join(WORDS[option.value]))}"
    elif option.value:
        line += " -r -F" if option.value == "FILE" else " -x"
    return f"{line} -d {fish_text(option.text)}"


def fish(told):
    lines = []
    for where in ("__dgc_command", "'__dgc_command help'"):
        lines += [f"complete -c dgc -n {where} -a {command.name} -d {fish_text(command.text)}" for command in told.top.commands]
    lines += [fish_option("__dgc_command", option) for option in told.top.options]
    for name, help in told.helps.items():
        where = f"'__dgc_command {name}'"
        for argument in help.arguments[:1]:
            words = words_of(told, argument.name)
            lines.append(f"complete -c dgc -n {where} " + (f"-a {fish_text(' '.join(words))}" if words else "-F"))
        lines += [fish_option(where, option) for option in help.options]
    return FISH.format(note=NOTE, lines="\n".join(lines))
