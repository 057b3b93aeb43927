#!/usr/bin/env python3
"""Makes the completions and the man page of confstorectl of the table of its words.

    python/pages_of_confstorectl.py             writes them into completions/ and docs/man
    python/pages_of_confstorectl.py --check     says which of them are not as the table has them

The status is 1 if one isn't, or could not be written.
"""

from __future__ import annotations

import os
import re
import sys
import textwrap
from typing import Dict, Iterator, List, Sequence, Tuple

HERE = os.path.dirname(os.path.abspath(__file__))
TOP = os.path.dirname(HERE)
sys.path.insert(0, HERE)

from confstore import __version__  # noqa: E402
from confstore.ctl_description import DESCRIPTION, FAULTS, OWN_FAULTS, STATUSES  # noqa: E402
from confstore.ctl_words import COMMON, GROUPS, HELP  # noqa: E402
from confstore.ctl_words import VERSION, WORDS, Argument, Option, Word  # noqa: E402

MADE = "# python/pages_of_confstorectl.py makes this file of the table of words."
WIDTH = 110

ALL = list(WORDS.values())
OPTIONS: List[Option] = list(dict.fromkeys(option for word in ALL for option in (*word.options, *COMMON)))
WITH_VALUE = sorted({option.name for option in OPTIONS if option.value})
# The options without a value that have the name of one with a value, each behind its word.
WITHOUT_VALUE = sorted(
    f"{word.name} {option.name}"
    for word in ALL
    for option in word.options
    if not option.value and option.name in WITH_VALUE
)
OF_FILES = sorted({option.name for option in OPTIONS if option.value in ("PATH", "FILE", "DIR")})
HELP_ABOUT = "Says what a word does"


def names_of(options: Sequence[Option]) -> str:
    return " ".join(option.name for option in options)


def places(argument: str) -> Iterator[str]:
    """Where an argument stands: each word with the number of arguments before it, or with `*` for any number."""
    for word in ALL:
        for place, found in enumerate(word.arguments):
            if found.name == argument and not is_pointer(found):
                yield f"{word.name}:{'*' if found.is_repeated else place}"


# ---- completions


def is_pointer(argument: Argument) -> bool:
    return "JSON Pointer" in argument.about


def takes_new(word: Word, place: int) -> bool:
    """Whether a pointer may stand for a place where nothing is yet."""
    return word.name == "set" or word.name == "move" and place == len(word.arguments) - 1


def places_of_pointers() -> Iterator[Tuple[Word, int]]:
    for word in ALL:
        for place, argument in enumerate(word.arguments):
            if is_pointer(argument):
                yield word, place


def pointers_of(file: str) -> str:
    """What completes pointers: the same as for confstore, for this program."""
    with open(os.path.join(TOP, "completions", file), encoding="utf-8") as source:
        shared = source.read().partition("# ---- pointers\n\n")[2].partition("\n# ---- words\n")[0]
    return shared.replace("confstore", "confstorectl")


def bash_pointers() -> Iterator[str]:
    """The cases of words and places that are pointers; a place counts the word, too."""
    once = [f"{word.name}:{place + 1}" for word, place in places_of_pointers() if not word.arguments[place].is_repeated]
    yield f"    {' | '.join(once)}) ;;"
    for word, place in places_of_pointers():
        if word.arguments[place].is_repeated:
            yield f'    {word.name}:*) [ "$2" -ge {place + 1} ] ;;'


def for_bash() -> str:
    shown = {word.name: names_of([*word.options, *word.common]) for word in ALL}
    cases = [f"    {word}) echo '{names}' ;;" for word, names in shown.items() if names != names_of(COMMON)]
    return BASH.format(
        made=MADE,
        words=" ".join([*WORDS, "help"]),
        options="\n".join(cases),
        common=names_of(COMMON),
        no_values=" | ".join(f"'{name}'" for name in WITHOUT_VALUE),
        values=" | ".join(f"*' {name}'" for name in WITH_VALUE),
        of_files=" | ".join(f"*' {name}'" for name in OF_FILES),
        no_files=" | ".join(f"*' {name}'" for name in WITH_VALUE if name not in OF_FILES),
        files=" | ".join([*places("FILE"), *places("TEMPLATE")]),
        folders=" | ".join([*places("NEW"), *places("DIR")]),
        names=" | ".join([*places("NAME"), *places("TO")]),
        version=VERSION.name,
        valued=" ".join(WITH_VALUE),
        of_pointers="\n".join(bash_pointers()),
        pointers=pointers_of("confstore.bash"),
    )


BASH = """\
# Completion of confstorectl for bash: `source` it, or put it as `confstorectl` where bash-completion looks for such
# files.
{made}

_confstorectl_words='{words}'

_confstorectl_options() {{
    case $1 in
{options}
    *) echo '{common}' ;;
    esac
}}

# The names of the configurations in a folder as it was typed, perhaps in quotes or with a `~`.
_confstorectl_names() {{
    local folder=${{1//[\\\\\\"\\']/}}
    [[ $folder != '~'* ]] || folder=$HOME${{folder#'~'}}
    confstorectl names -- "$folder" 2>/dev/null
}}

# The options with a value, and the words and places that are pointers: the word, the folder and the name come before
# them.
_confstorectl_valued='{valued}'
_confstorectl_is_pointer() {{
    case $1:$2 in
{of_pointers}
    *) return 1 ;;
    esac
}}

{pointers}
_confstorectl() {{
    local current=${{COMP_WORDS[COMP_CWORD]}} word='' place=-1 index folder='' more=''
    COMPREPLY=()
    ! _confstorectl_pointers "$2" || return 0
    for ((index = 1; index < COMP_CWORD; index++)); do
        case "$word ${{COMP_WORDS[index]}}" in
        {no_values}) ;;
        {values}) index=$((index + 1)) ;;
        *' -'?*) ;;
        *)
            place=$((place + 1))
            [ "$place" -ne 0 ] || word=${{COMP_WORDS[index]}}
            [ "$place" -ne 1 ] || folder=${{COMP_WORDS[index]}}
            ;;
        esac
    done
    case "$word ${{COMP_WORDS[COMP_CWORD - 1]}}" in
    {no_values}) ;;
    {of_files})
        compopt -o filenames
        mapfile -t COMPREPLY < <(compgen -f -- "$current")
        return
        ;;
    {no_files}) return ;;
    esac
    if [[ $current == -* ]]; then
        [ -n "$word" ] || more={version}
        mapfile -t COMPREPLY < <(compgen -W "$(_confstorectl_options "$word") $more" -- "$current")
        return
    fi
    case $word:$place in
    :-1 | help:0) mapfile -t COMPREPLY < <(compgen -W "$_confstorectl_words" -- "$current") ;;
    {files})
        compopt -o filenames
        mapfile -t COMPREPLY < <(compgen -f -- "$current")
        ;;
    {names})
        mapfile -t COMPREPLY < <(compgen -W "$(_confstorectl_names "$folder")" -- "$current")
        ;;
    *:0 | {folders})
        compopt -o filenames
        mapfile -t COMPREPLY < <(compgen -d -- "$current")
        ;;
    esac
}}

complete -F _confstorectl confstorectl
"""

ZSH_PLACES = {
    "FOLDER": "folder:_files -/", "NAME": "name:_confstorectl_names", "TO": "name:_confstorectl_names",
    "FILE": "file:_files", "TEMPLATE": "template:_files", "NEW": "folder:_files -/",
    "DIR": "folder:_files -/",
}  # fmt: skip


def zsh_option(option: Option) -> str:
    action = "_files" if option.name in OF_FILES else "_confstorectl_pointers" if option.value == "POINTER" else ""
    value = f":{option.value.lower()}:{action}" if option.value else ""
    return f"'{'*' if option.is_repeated else ''}{option.name}[{option.about}]{value}'"


def zsh_argument(word: Word, place: int, argument: Argument) -> str:
    where = "*" if argument.is_repeated else place + 1
    if is_pointer(argument):
        return f"'{where}:pointer:_confstorectl_{'new_' if takes_new(word, place) else ''}pointers'"
    return f"'{where}:{ZSH_PLACES.get(argument.name, argument.name.lower() + ':')}'"


def zsh_case(word: Word) -> str:
    parts = [zsh_option(option) for option in word.options]
    parts += [zsh_argument(word, place, argument) for place, argument in enumerate(word.arguments)]
    common = ["$common"] if word.common == COMMON else [zsh_option(option) for option in word.common]
    lines = " \\\n            ".join([*common, *parts])
    return f"        {word.name}) _arguments {lines} ;;"


def for_zsh() -> str:
    return ZSH.format(
        made=MADE,
        words="\n".join(f"        '{word.name}:{word.about}'" for word in ALL),
        help_about=HELP_ABOUT,
        common="\n".join(f"        {zsh_option(option)}" for option in COMMON),
        version=zsh_option(VERSION),
        cases="\n".join(map(zsh_case, ALL)),
        pointers=pointers_of("_confstore"),
    )


ZSH = """\
#compdef confstorectl
# Completion of confstorectl for zsh: put it into a folder of `fpath`.
{made}

# The names of the configurations in the folder that was typed.
_confstorectl_names() {{
    local -a names_there
    names_there=(${{(f)"$(_call_program names confstorectl names -- ${{(q)${{(Q)line[1]}}}} 2>/dev/null)"}})
    compadd -a names_there
}}

{pointers}
_confstorectl() {{
    local context state line curcontext=$curcontext
    local -a words_of common
    words_of=(
{words}
        'help:{help_about}'
    )
    common=(
{common}
    )
    _arguments -C -A '-*' $common {version} '1: :->word' '*:: :->rest'
    case $state in
    word) _describe -t words word words_of ;;
    rest)
        case $words[1] in
{cases}
        help) _describe -t words word words_of ;;
        esac
        ;;
    esac
}}

_confstorectl "$@"
"""


def fish_option(condition: str, option: Option) -> str:
    value = " -r -F" if option.name in OF_FILES else " -x" if option.value else ""
    pointers = f" {FISH_POINTERS}" if option.value == "POINTER" else ""
    return f"complete -c confstorectl{condition} -l {option.name[2:]}{value} -d '{option.about}'{pointers}"


FISH_POINTERS = "-a '(__confstorectl_pointers | string split0)'"


def fish_pointers() -> Iterator[str]:
    """The rows of the places that are pointers."""
    for word, place in places_of_pointers():
        where = "from" if word.arguments[place].is_repeated else "at"
        action = FISH_POINTERS.replace("pointers", "pointers new") if takes_new(word, place) else FISH_POINTERS
        yield f"complete -c confstorectl -n '__confstorectl_{where} {place} {word.name}' {action}"


def fish_places(argument: str) -> Iterator[str]:
    """The conditions under which an argument is written."""
    where: Dict[str, List[str]] = {}
    for place in places(argument):
        word, _, number = place.partition(":")
        where.setdefault(number, []).append(word)
    for number, words in where.items():
        if number == "*":
            yield from (f"'__confstorectl_is {word}'" for word in words)
        else:
            yield f"'__confstorectl_at {number} {' '.join(words)}'"


def for_fish() -> str:
    starts = [f"complete -c confstorectl -n '__confstorectl_at -1' -a {word.name} -d '{word.about}'" for word in ALL]
    starts.append(f"complete -c confstorectl -n '__confstorectl_at -1' -a help -d '{HELP_ABOUT}'")
    rows = [fish_option(fish_words_with(option), option) for option in COMMON]
    rows.append(fish_option(" -n '__confstorectl_at -1'", VERSION))
    for word in ALL:
        rows += [fish_option(f" -n '__confstorectl_is {word.name}'", option) for option in word.options]
    folders = "-a '(__fish_complete_directories)'"
    of_places = (("FOLDER", folders), ("NEW", folders), ("DIR", folders), ("FILE", "-F"), ("TEMPLATE", "-F"))
    for argument, action in of_places:
        rows += [f"complete -c confstorectl -n {place} {action}" for place in fish_places(argument)]
    for argument in ("NAME", "TO"):
        rows += [f"complete -c confstorectl -n {place} -a '(__confstorectl_names)'" for place in fish_places(argument)]
    rows += fish_pointers()
    rows.append(f"complete -c confstorectl -n '__confstorectl_at 0 help' -a '{' '.join(WORDS)}'")
    no_values = " ".join(f"'{name}'" for name in WITHOUT_VALUE)
    lines = "\n".join(map(fish_lines, [*starts, *rows]))
    values = " ".join(WITH_VALUE)
    return FISH.format(
        made=MADE, values=values, no_values=no_values, rows=lines, pointers=pointers_of("confstore.fish")
    )


def fish_words_with(option: Option) -> str:
    """The condition under which an option of most words is offered."""
    without = [word.name for word in ALL if option not in word.common]
    return "".join(f" -n 'not __confstorectl_is {word}'" for word in without)


def fish_lines(row: str) -> str:
    """A row, in two lines where it is long."""
    return re.sub(r" -([ad]) ", r" \\\n    -\1 ", row, count=1) if len(row) > WIDTH else row


FISH = """\
# Completion of confstorectl for fish: put it into a folder of `fish_complete_path`.
{made}

# The words that were written that are no options and no option's value: the word, and its arguments.
function __confstorectl_places
    set -l places
    set -l is_value 0
    for word in (commandline -opc)[2..-1]
        if test $is_value = 1
            set is_value 0
        else if contains -- $word {values}; and not contains -- "$places[1] $word" {no_values}
            set is_value 1
        else if not string match -q -- '-?*' $word
            set -a places $word
        end
    end
    for place in $places
        echo $place
    end
end

# Whether so many arguments come before the one that is being written, after one of these words.
function __confstorectl_at
    set -l places (__confstorectl_places)
    test (count $places) -eq (math $argv[1] + 1)
    and begin
        test (count $argv) -eq 1
        or contains -- "$places[1]" $argv[2..-1]
    end
end

# Whether this is the word that was written.
function __confstorectl_is
    set -l places (__confstorectl_places)
    test "$places[1]" = $argv[1]
end

# The names of the configurations in the folder that was written.
function __confstorectl_names
    set -l places (__confstorectl_places)
    confstorectl names -- $places[2] 2>/dev/null
end

# Whether at least so many arguments come before the one that is being written, after this word.
function __confstorectl_from
    set -l places (__confstorectl_places)
    test (count $places) -gt $argv[1]
    and test "$places[1]" = $argv[2]
end

# The folder and the name that were written.
function __confstorectl_store
    set -l places (__confstorectl_places)
    string join -- \\n $places[2..3]
end

{pointers}
complete -c confstorectl -f
{rows}
"""


# ---- the man page


def escaped(text: str) -> str:
    return text.replace("\\", "\\e").replace("-", "\\-")


def roff(text: str) -> str:
    """A paragraph in the lines of a man page. What is between backticks is bold."""
    parts = [escaped(part) for part in text.split("`")]
    shown = "".join(f"\\fB{part}\\fR" if place % 2 else part for place, part in enumerate(parts))
    lines = textwrap.wrap(shown, WIDTH, break_long_words=False, break_on_hyphens=False)
    return "\n".join(f"\\&{line}" if line[:1] in (".", "'") else line for line in lines)


def roff_usage(word: Word) -> str:
    """A usage: what is typed in bold, and what stands for something else in italics."""
    usage = escaped(word.usage.partition(" ")[2])
    return re.sub(r"[A-Z]+|(?:\\-\\-)?[a-z]+(?:\\-[a-z]+)*", lambda found: roff_part(found.group()), usage)


def roff_part(part: str) -> str:
    return f"\\fI{part}\\fR" if part.isupper() else f"\\fB{part}\\fR"


def roff_word(word: Word) -> str:
    paragraphs = [f"{word.about}.", *word.details]
    return f".TP\n{roff_usage(word)}\n" + "\n.IP\n".join(map(roff, paragraphs))


def roff_option(option: Option, words: str = "") -> str:
    value = f" \\fI{option.value}\\fR" if option.value else ""
    return f".TP\n\\fB{escaped(option.name)}\\fR{value}\n{roff(words + option.about + '.')}"


def roff_options() -> Iterator[str]:
    for option in OPTIONS:
        words = ", ".join(f"`{word.name}`" for word in ALL if option in word.options)
        yield roff_option(option, f"Of {' and '.join(words.rsplit(', ', 1))}: " if words else "")
    yield roff_option(VERSION)


def for_man() -> str:
    parts = [f'.TH CONFSTORECTL 1 "" "confstore {__version__}" "User Commands"']
    parts.append(".SH NAME\nconfstorectl \\- change and read a store of confstore, also one that a server holds")
    parts.append(".SH SYNOPSIS\n.B confstorectl\n[\\fB\\-\\-socket\\fR \\fIPATH\\fR]")
    parts.append("[\\fB\\-\\-wait\\fR \\fISECONDS\\fR]")
    parts.append("\\fIWORD\\fR \\fIFOLDER\\fR .\\|.\\|.\n.br\n.B confstorectl help\n[\\fIWORD\\fR]")
    parts.append(".SH DESCRIPTION\n" + "\n.PP\n".join(map(roff, DESCRIPTION)))
    for heading, words in GROUPS:
        parts.append(f".SH WORDS THAT {heading.upper()}")
        parts += map(roff_word, words)
    parts.append(f".TP\n\\fBhelp\\fR [\\fIWORD\\fR]\n{HELP_ABOUT}, as\n.B {escaped(HELP.name)}\nafter it.")
    parts.append(".SH OPTIONS")
    parts += roff_options()
    parts.append(".SH EXIT STATUS")
    parts += [f".TP\n.B {status}\n{roff(meaning)}" for status, meaning in STATUSES]
    parts.append(f".SH FAULTS\n{roff(FAULTS)}\nThese few are:")
    parts += [f".TP\n.B {name}\n{roff(f'Status {status}: {about}.')}" for name, status, about in OWN_FAULTS]
    parts.append(".SH EXAMPLES\n.EX")
    parts += [escaped(line) for word in ALL for line in word.examples]
    parts.append(".EE\n.SH ENVIRONMENT\n.TP\n.B CONFSTORE_SOCKET\nThe socket, where\n.B \\-\\-socket\nnames none.")
    parts.append(".TP\n.B CONFSTORE\nThe program confstore.")
    parts.append(".TP\n.B CONFSTORE_ABOUT\nWhat is noted of each change: KEY=TEXT, a line each.")
    parts.append(".SH FILES\n.TP\n.I FOLDER/confstore.sock\nThe socket of a server, where none is named.")
    parts.append(".SH SEE ALSO\n.BR confstore (1),\n.BR confstore\\-store (5)")
    return "\n".join(parts) + "\n"


PAGES = {
    "completions/confstorectl.bash": for_bash,
    "completions/_confstorectl": for_zsh,
    "completions/confstorectl.fish": for_fish,
    "docs/man/confstorectl.1": for_man,
}


def is_made(path: str, text: str) -> bool:
    """Whether a file is as the table has it."""
    try:
        with open(os.path.join(TOP, path), encoding="utf-8") as source:
            return source.read() == text
    except FileNotFoundError:
        return False


def main() -> int:
    made = {path: make() for path, make in PAGES.items()}
    if sys.argv[1:] == ["--check"]:
        other = [path for path, text in made.items() if not is_made(path, text)]
        for path in other:
            print(f"{path} is not as the table of words has it: run python/pages_of_confstorectl.py")
        return 1 if other else 0
    for path, text in made.items():
        with open(os.path.join(TOP, path), "w", encoding="utf-8") as target:
            target.write(text)
    return 0


if __name__ == "__main__":
    sys.exit(main())
