"""The completions of naplps-pages for bash, zsh and fish, and the synopses of its manual page."""
import re
from typing import Dict, Iterator, List, Tuple

from naplps_pages.commands import FILES, FOLDERS, GROUPS, Argument, OneOf, Option, Part, command, in_group, options

NAMES = tuple(name for group in GROUPS for name in in_group(group))
PARTS = {name: command(name).parts() for name in NAMES}
HELP = Option("--help", "print help", default=False, short="-h")
# Options that the manual describes once for all commands.
SHARED_WORDS = ("--json", "--csv", "--print0", "--previous", "--budget", "--timeout", "--jobs")


def of(name: str) -> List[Option]:
    """The options of a command."""
    return [*options(PARTS[name]), HELP]


def spelled(option: Option) -> List[str]:
    """The words of an option, the short one first if there is one."""
    return [option.short, option.word] if option.short else [option.word]


def short(text: str) -> str:
    """The first clause of a help, without marks of its own, and up to a comma where it is long."""
    clause = re.split(r"[;:(]|\. ", text)[0]
    while len(clause) > 60 and ", " in clause:
        clause = clause.rpartition(", ")[0]
    return re.sub(r"[`\[\]]", "", clause).strip()


def bash() -> str:
    """The completion for bash."""
    every = {each.word: each for name in NAMES for each in of(name) if each.title and not each.choices}
    values = {is_file: " | ".join(f"*' {word}'" for each in every.values() if bool(each.completes) == is_file
                                  for word in spelled(each)) for is_file in (False, True)}
    chosen = [f"        '{name} {each.word}') {_CHOSEN % ' '.join(each.choices)}" for name in NAMES for each in of(name)
              if each.choices]
    words = [f"        {name}) words='{' '.join(each.word for each in of(name))}' ;;" for name in NAMES]
    return _BASH.format(names=" ".join(NAMES), unknown=values[False], files=values[True], chosen="\n".join(chosen),
                        words="\n".join(words))


_CHOSEN = """mapfile -t COMPREPLY < <(compgen -W '%s' -- "$word") && return ;;"""
_BASH = """\
# Completion of naplps-pages for bash. python3 -m dev.completions makes it of the commands.
_naplps_pages() {{
    local word=${{COMP_WORDS[COMP_CWORD]}} before=${{COMP_WORDS[COMP_CWORD - 1]}} command='' words='' index
    local commands='{names}'
    for ((index = 1; index < COMP_CWORD; index++)); do
        if [[ " $commands help " = *" ${{COMP_WORDS[index]}} "* ]]; then
            command=${{COMP_WORDS[index]}}
            break
        fi
    done
    case "$command $before" in
        # (what these are is for the user to say)
        {unknown}) return ;;
{chosen}
        {files})
            compopt -o filenames
            mapfile -t COMPREPLY < <(compgen -f -- "$word")
            return
            ;;
    esac
    case $command in
        '') words="$commands help --help --version" ;;
        help) words=$commands ;;
{words}
    esac
    if [[ -z $command || $command = help || $word = -* ]]; then
        mapfile -t COMPREPLY < <(compgen -W "$words" -- "$word")
    fi
    # (a file may stand in place of a command)
    if [[ $command != help && $word != -* && ${{#COMPREPLY[@]}} = 0 ]]; then
        compopt -o filenames
        mapfile -t COMPREPLY < <(compgen -f -- "$word")
    fi
}}

complete -F _naplps_pages naplps-pages
"""


def zsh() -> str:
    """The completion for zsh."""
    named = "\n".join(f"        '{name}:{_quoted(short(command(name).help))}'" for name in NAMES)
    between = " \\\n" + " " * 24
    cases = "\n".join(f"                {name})\n                    _arguments {between.join(_zsh_words(name))}\n"
                      "                    ;;" for name in NAMES)
    return _ZSH.format(named=named, cases=cases, names=" ".join(NAMES))


def _zsh_words(name: str) -> Iterator[str]:
    for part in PARTS[name]:
        some = () if isinstance(part, Argument) else part.options if isinstance(part, OneOf) else (part,)
        excluded = " ".join(word for each in some for word in spelled(each))
        for each in some:
            front = "*" if each.is_repeated else f"({excluded})" if " " in excluded else ""
            words = f"'{{{','.join(spelled(each))}}}'" if each.short else each.word
            value = f":{each.title.lower()}:{_zsh_value(each)}" if each.title else ""
            yield f"'{front}{words}[{_quoted(short(each.help))}]{value}'"
    yield _zsh_argument([part for part in PARTS[name] if isinstance(part, Argument)])


def _zsh_value(option: Option) -> str:
    if option.choices:
        return f"({' '.join(option.choices)})"
    return {FILES: "_files", FOLDERS: "_files -/"}.get(option.completes, " ")


def _zsh_argument(some: List[Argument]) -> str:
    front = "1" if some[0].number in (None, 1) else "*"
    return f"'{front}:{' or '.join(each.title.lower() for each in some)}:_files'"


def _quoted(text: str) -> str:
    """A text between single quotes of bash and zsh."""
    return text.replace("'", "'\\''")


_ZSH = """\
#compdef naplps-pages
# Completion of naplps-pages for zsh. python3 -m dev.completions makes it of the commands.

_naplps_pages() {{
    local curcontext=$curcontext state line
    local -a commands
    commands=(
{named}
    )
    _arguments -C \\
        '(- *)'{{-h,--help}}'[print help]' \\
        '(- *)'{{-V,--version}}'[print the version]' \\
        '1: :->command' \\
        '*:: :->words'
    case $state in
        # (a file may stand in place of a command)
        command) _describe -t commands command commands || _files ;;
        words)
            case $line[1] in
                help) _arguments '1:command:({names})' ;;
{cases}
            esac
            ;;
    esac
}}

_naplps_pages "$@"
"""


def fish() -> str:
    """The completion for fish."""
    lines = ["# Completion of naplps-pages for fish. python3 -m dev.completions makes it of the commands."]
    lines += [f"complete -c naplps-pages -n __fish_use_subcommand -a {name} -d '{_first(short(command(name).help))}'"
              for name in NAMES]
    found: Dict[Tuple[str, str, str], List[str]] = {}
    for name in NAMES:
        for each in of(name)[:-1]:
            found.setdefault((_fish_word(each), _fish_value(each), _first(short(each.help))), []).append(name)
    for (word, value, told), names in found.items():
        lines.append(f"complete -c naplps-pages -n '__fish_seen_subcommand_from {' '.join(names)}' {word}{value} "
                     f"-d '{told}'")
    lines += [f"complete -c naplps-pages -n '__fish_seen_subcommand_from help' -f -a '{' '.join(NAMES)}'",
              "complete -c naplps-pages -s h -l help -d 'Print help'",
              "complete -c naplps-pages -n __fish_use_subcommand -s V -l version -d 'Print the version'"]
    return "\n".join(lines) + "\n"


def _first(text: str) -> str:
    return (text[0].upper() + text[1:]).replace("'", "\\'")


def _fish_word(option: Option) -> str:
    return (f"-s {option.short[1:]} " if option.short else "") + f"-l {option.word[2:]}"


def _fish_value(option: Option) -> str:
    if option.choices:
        return f" -x -a '{' '.join(option.choices)}'"
    return "" if not option.title else " -r" if option.completes else " -x"


def synopsis() -> str:
    """The lines of the manual page between SYNOPSIS and DESCRIPTION."""
    lines: List[str] = []
    for name in NAMES:
        lines += [".Nm", f".Cm {name}"]
        lines += [_mdoc(part, some) for part in PARTS[name] for some in [_listed(part)] if some]
        lines += [_mdoc_argument(part) for part in PARTS[name] if isinstance(part, Argument)]
    return "\n".join([*lines, ".Nm", ".Ar file ...", ".Nm", ".Cm help", ".Op Ar command"]) + "\n"


def _listed(part: Part) -> List[Option]:
    """The options of a part but for those of several commands, which have one place in the manual."""
    return [each for each in options([part]) if each.word not in SHARED_WORDS]


def _mdoc(part: Part, some: List[Option]) -> str:
    is_required = part.is_required if isinstance(part, OneOf) else any(each.is_required for each in some)
    words = " | ".join(map(_mdoc_option, some))
    return f".{words}" if is_required else f".Op {words}"


def _mdoc_option(option: Option) -> str:
    word = f"Fl {option.short[1:]}" if option.short else f"Fl Fl {option.word[2:]}"
    return f"{word} Ar {_mdoc_title(option.title)}" if option.title else word


def _mdoc_title(title: str) -> str:
    return title if len(title) == 1 else " Ns / Ns Ar ".join(title.split("/")) if "/" in title else title.lower()


def _mdoc_argument(argument: Argument) -> str:
    title = argument.shown_as or argument.title.lower()
    return f".Ar {title}" + (f" {title}" if argument.number == 2 else " ..." if argument.number == "+" else "")
