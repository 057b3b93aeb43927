"""What confstorectl is asked to do, by the words that it is given."""

from __future__ import annotations

from .ctl_faults import Fault, shown
from .ctl_words import ALL, ARCHIVE, ARCHIVES, AT, CHECKPOINT, COMMON, DEFAULT, DIFF, EDITS, ENVIRONMENT, EXPORT
from .ctl_words import FORMAT, FROM_FILE, GET, HELP, HIDE, IF_ABSENT, IF_VALUE, INSERT, IN_PLACE, JSON, JSON_RECORDS
from .ctl_words import LINES, LOG, MOVE, NOTE, NOTE_SHOWN, NO_BY, NO_NEWLINE, NO_WHEN, OF_FILES, OTHER_NAMES, PAGE
from .ctl_words import PARENTS, PLAIN, RAW, READING_AT, RENDER, ROLLBACK, SET, SETTLE, SINCE, SOCKET, TO_NUMBER, UNDO
from .ctl_words import VALUES, VERSION, WAIT, WHOLE, WORDS, YAML_RECORDS, YAML_VALUE, Option, Word

TYPE_CHECKING = False
if TYPE_CHECKING:
    from collections.abc import Sequence

# The options by their names, where the word is not known yet. Of those with one name the first counts.
_OPTIONS: dict[str, Option] = {}
for _word in WORDS.values():
    for _option in (*_word.options, *COMMON, VERSION):
        _OPTIONS.setdefault(_option.name, _option)
# Those that may be given again, by some word.
_REPEATED = {option.name for word in WORDS.values() for option in word.options if option.is_repeated}
_SHORT = {"-h": HELP.name, "-V": VERSION.name, "-i": IN_PLACE.name}

# A negative number, and a number of seconds.
_NUMBER = r"-[0-9]+(\.[0-9]*)?([eE][-+]?[0-9]+)?"
_SECONDS = r"[0-9]+(\.[0-9]*)?|\.[0-9]+"

# The greatest number that a command can have.
GREATEST = 2**64 - 1

# Options of which a word has one at most.
_EXCLUDING = (
    (IF_VALUE, IF_ABSENT),
    (YAML_VALUE, FROM_FILE),
    (RAW, JSON),
    (RAW, PLAIN),
    (JSON, PLAIN),
    (VALUES, YAML_RECORDS),
    (VALUES, JSON_RECORDS),
    (YAML_RECORDS, JSON_RECORDS),
    (PARENTS, INSERT),
    (WHOLE, PARENTS),
    (WHOLE, INSERT),
    (FORMAT, EDITS),
    (ENVIRONMENT, RAW),
    (ENVIRONMENT, JSON),
    (ENVIRONMENT, PLAIN),
    (ENVIRONMENT, DEFAULT),
    (OF_FILES, SINCE),
    (OF_FILES, TO_NUMBER),
    (OF_FILES, ARCHIVES),
    (AT, TO_NUMBER),
)


def _is(pattern: str, text: str) -> bool:
    """Whether a pattern fits a text. `re` is imported where an option or an argument needs it."""
    import re

    return re.fullmatch(pattern, text) is not None


class Asked:
    """A word with its arguments and options, by their names. An option without a value has an empty one."""

    def __init__(
        self,
        word: Word,
        arguments: dict[str, str],
        options: dict[str, str],
        command: tuple[str, ...] = (),
        repeated: tuple[str, ...] = (),
        several: dict[str, list[str]] | None = None,
    ) -> None:
        self.word, self.arguments, self.options, self.command = word, arguments, options, command
        self.repeated = repeated  # what stands again for the last argument
        self._several = several or {}  # the values of options that may be given again

    @property
    def folder(self) -> str:
        return self.arguments["FOLDER"]

    @property
    def hidden(self) -> list[str]:
        """The pointers of `--hide`."""
        return self._several.get(HIDE.name, [])

    @property
    def archives(self) -> list[str]:
        """The archives that are looked into, too."""
        return self._several.get(ARCHIVES.name, []) if ARCHIVES in self.word.options else []

    def argument(self, name: str) -> str:
        """An argument, or an empty text where it was left out."""
        return self.arguments.get(name, "")

    def has(self, option: Option) -> bool:
        """Whether it has an option, and not one of the same name that takes a value where this takes none."""
        named = (own for own in (*self.word.options, *self.word.common) if own.name == option.name)
        return option.name in self.options and any(bool(own.value) == bool(option.value) for own in named)

    def with_option(self, option: Option) -> Asked:
        """This with an option more, which has no value."""
        options = {**self.options, option.name: ""}
        return Asked(self.word, self.arguments, options, self.command, self.repeated, self._several)

    def of_archive(self, folder: str) -> Asked:
        """This of one folder, and of no archive beside it."""
        arguments = {**self.arguments, "FOLDER": folder}
        options = {name: value for name, value in self.options.items() if name != ARCHIVES.name}
        return Asked(self.word, arguments, options, self.command, self.repeated)

    @property
    def abouts(self) -> list[str]:
        """What is given for the about of a change, as `KEY=TEXT`."""
        return self._several.get(NOTE.name, []) if NOTE in self.word.options else []

    @property
    def shown_keys(self) -> list[str]:
        """The keys of abouts that are shown."""
        return self._several.get(NOTE_SHOWN.name, []) if NOTE_SHOWN in self.word.options else []

    @property
    def socket(self) -> str:
        return self.options.get(SOCKET.name, "")

    @property
    def wait(self) -> float:
        return float(self.options.get(WAIT.name, "0"))


class Help:
    """Help is asked for: of a word, or of all if that is empty."""

    def __init__(self, word: str) -> None:
        self.word = word


class Version:
    """The version is asked for."""


def wrong(about: str, word: Word | None = None) -> Fault:
    """The fault of wrong words."""
    rest = word.usage if word is not None else "see confstorectl --help"
    return Fault("WrongWords", f"{about}: {rest}")


def no_option(name: str, word: Word | None) -> Fault:
    """The fault of an option that is none, with one that is like it."""
    there = [option.name for option in (*word.options, *word.common)] if word is not None else list(_OPTIONS)
    return wrong(f"there is no option {shown(name)}{_like(name, there)}", word)


def no_word(name: str) -> Fault:
    """The fault of a word that is none, with one that is like it, or that does what others call so."""
    return wrong(f"there is no word {shown(name)}{_like(name, [*WORDS, 'help', *OTHER_NAMES])}")


def _like(name: str, names: list[str]) -> str:
    """A tip: the name that is the most like another one, if any is."""
    from difflib import get_close_matches  # by wrong words alone

    found = get_close_matches(name, names, 1)
    return f"; `{OTHER_NAMES.get(found[0], found[0])}` may be meant" if found else ""


def _option_of(word: Word | None, name: str) -> Option | None:
    """An option by its name, which is one of the word if that has such a one."""
    of_word = (*word.options, *word.common) if word is not None else ()
    return next((option for option in of_word if option.name == name), _OPTIONS.get(name))


class _Cut:
    """Words that are cut into arguments and options."""

    def __init__(self, words: Sequence[str]) -> None:
        self.arguments: list[str] = []
        self.options: dict[str, str] = {}
        self.command: tuple[str, ...] = ()
        self.several: dict[str, list[str]] = {}
        self._left = list(reversed(words))
        while self._left:
            self._take(self._left.pop())

    def _take(self, word: str) -> None:
        if word == "--":
            self._take_rest(list(reversed(self._left)))
            self._left.clear()
        elif word.startswith("--"):
            self._take_option(*word.partition("="))
        elif word in _SHORT:
            self.options[_SHORT[word]] = ""
        elif word.startswith("-") and word != "-" and not self._may_be_number(word):
            raise no_option(word, self._word())
        else:
            self.arguments.append(word)

    def _take_rest(self, rest: list[str]) -> None:
        """Takes what follows `--`: a command where that may stand, and else arguments, and a command after another."""
        of = self._word()
        if of is None or not of.takes_command:
            self.arguments += rest
            return
        if len(self.arguments) <= sum(not argument.is_optional for argument in of.arguments):
            end = rest.index("--") if "--" in rest else len(rest)
            self.arguments += rest[:end]
            if end == len(rest):
                return
            rest = rest[end + 1 :]
        if not rest:
            raise wrong("COMMAND is missing", of)
        self.command = tuple(rest)

    def _word(self) -> Word | None:
        return WORDS.get(self.arguments[0]) if self.arguments else None

    def _may_be_number(self, word: str) -> bool:
        """Whether the next argument is a value, which may be a negative number."""
        of = self._word()
        place = len(self.arguments) - 1
        if of is None or place >= len(of.arguments) or of.arguments[place].name != "VALUE":
            return False
        return _is(_NUMBER, word)

    def _take_option(self, name: str, mark: str, value: str) -> None:
        option = _option_of(self._word(), name)
        if option is None:
            raise no_option(name, self._word())
        if name in self.options and name not in _REPEATED:
            raise wrong(f"{name} is there twice", self._word())
        if not option.value and mark:
            raise wrong(f"{name} takes no value", self._word())
        if option.value and not mark:
            if not self._left:
                raise wrong(f"{name} wants {option.value}", self._word())
            value = self._left.pop()
            if option not in COMMON and value.startswith("-") and value != "-" and not _is(_NUMBER, value):
                raise wrong(f"{name} wants {option.value}; {name}={shown(value)} gives it that", self._word())
        self.options[name] = value
        if name in _REPEATED:
            self.several.setdefault(name, []).append(value)


def asked_of(words: Sequence[str]) -> Asked | Help | Version:
    """What the words ask for. Raises `WrongWords`."""
    if any("\udc80" <= sign <= "\udcff" for word in words for sign in word):
        raise Fault("WrongWords", "the words are not UTF-8")
    cut = _Cut(words)
    name = cut.arguments[0] if cut.arguments else ""
    if VERSION.name in cut.options:
        return Version()
    if name == "help" or (HELP.name in cut.options and not name):
        return _help_of(cut.arguments[1:])
    if not name:
        raise wrong("a word is missing")
    word = WORDS.get(name)
    if word is None:
        raise no_word(name)
    if HELP.name in cut.options:
        return Help(name)
    _check_options(word, cut.options)
    repeated = tuple(cut.arguments[1 + len(word.arguments) :])
    asked = Asked(word, _arguments_of(word, cut.arguments[1:]), cut.options, cut.command, repeated, cut.several)
    _check_pointer(asked)
    _check_together(asked)
    _check_history(asked)
    _check_archives(asked, len(cut.several.get(ARCHIVE.name, ())))
    _check_several(asked)
    _check_abouts(asked)
    return asked


def _help_of(words: Sequence[str]) -> Help:
    if len(words) > 1 or (words and words[0] not in WORDS):
        raise no_word(words[-1])
    return Help(words[0] if words else "")


def _arguments_of(word: Word, words: Sequence[str]) -> dict[str, str]:
    """The arguments of a word by their names."""
    needed = [argument.name for argument in word.arguments if not argument.is_optional]
    if len(words) < len(needed):
        raise wrong(f"{needed[len(words)]} is missing", word)
    if len(words) > len(word.arguments) and not word.arguments[-1].is_repeated:
        raise wrong(f"{shown(words[len(word.arguments)])} is one argument too many", word)
    return {argument.name: given for argument, given in zip(word.arguments, words)}


def _check_number(word: Word, name: str, number: str) -> None:
    if not (number.isascii() and number.isdecimal()) or int(number) > GREATEST:
        raise wrong(f"{name} wants a number, not {shown(number)}", word)


def _check_options(word: Word, options: dict[str, str]) -> None:
    """Raises `WrongWords` for an option that the word has not, or whose value is none."""
    for name in options:
        if all(name != option.name for option in (*word.options, *word.common)):
            why = ": it goes to no server" if name == SOCKET.name else ""
            raise wrong(f"{word.name} has no option {name}{why}", word)
    for option in word.options:
        if option.value == "N":
            _check_number(word, option.name, options.get(option.name, "0"))
    for option in (WAIT, SETTLE):
        seconds = options.get(option.name)
        if seconds is not None and not _is(_SECONDS, seconds):
            raise wrong(f"{option.name} wants a number of seconds, not {shown(seconds)}", word)
    if options.get(SOCKET.name) == "":
        raise wrong(f"{SOCKET.name} wants a path", word)


def _check_pointer(asked: Asked) -> None:
    """Raises `WrongWords` for an empty pointer of a change without the option that allows it, so that a variable of a
    shell that is not set removes nothing, and for that option with another pointer. A move has no such option."""
    if asked.word is MOVE and not (asked.arguments["FROM"] and asked.arguments["TO"]):
        raise wrong("FROM and TO may not be empty", MOVE)
    pointer = asked.arguments.get("POINTER")
    if WHOLE not in asked.word.options or pointer is None:
        return
    if not pointer and not asked.has(WHOLE):
        raise wrong(f"an empty POINTER needs {WHOLE.name}", asked.word)
    if pointer and asked.has(WHOLE):
        raise wrong(f'{WHOLE.name} needs the POINTER ""', asked.word)


def _check_together(asked: Asked) -> None:
    """Raises `WrongWords` for options that exclude each other, and for a value that is not given, or twice."""
    for one, other in _EXCLUDING:
        if asked.has(one) and asked.has(other):
            raise wrong(f"{one.name} beside {other.name}", asked.word)
    if asked.word is LOG and asked.has(HIDE) and not (asked.has(VALUES) or asked.has(JSON_RECORDS)):
        raise wrong(f"{HIDE.name} needs {VALUES.name}", asked.word)
    if asked.has(NO_NEWLINE) and not asked.has(RAW):
        raise wrong(f"{NO_NEWLINE.name} needs {RAW.name}", asked.word)
    if asked.has(SETTLE) and not asked.command:
        raise wrong(f"{SETTLE.name} needs `-- COMMAND`", asked.word)
    if asked.word is RENDER and asked.command and "FILE" not in asked.arguments:
        raise wrong("a COMMAND needs FILE", asked.word)
    if asked.word is SET and ("VALUE" in asked.arguments) == asked.has(FROM_FILE):
        raise wrong(f"either VALUE or {FROM_FILE.name} is needed", asked.word)


def _check_history(asked: Asked) -> None:
    """Raises `WrongWords` for words on earlier commands that lack something, or that say it wrongly."""
    if asked.word is UNDO:
        range_of(asked.arguments["N"])
    if asked.word is ROLLBACK and not asked.has(TO_NUMBER):
        raise wrong(f"{TO_NUMBER.name} is needed", asked.word)
    if asked.word is DIFF and asked.has(OF_FILES) and "NAME" not in asked.arguments:
        raise wrong(f"{OF_FILES.name} needs two files", asked.word)
    if asked.word is DIFF and asked.hidden and not asked.has(LINES):
        raise wrong(f"{HIDE.name} needs {LINES.name}", asked.word)
    for pointer in asked.hidden if asked.word in (DIFF, PAGE) else ():
        if not _is("(/([^~/]|~[01])*)*", pointer):
            raise wrong(f"{HIDE.name} wants a JSON Pointer, not {shown(pointer)}", asked.word)


def _check_archives(asked: Asked, count: int) -> None:
    """Raises `WrongWords` for archives of a word that has no use for them, or for one that has no name."""
    if asked.word is CHECKPOINT and count > 1:
        raise wrong(f"{ARCHIVE.name} is there twice", asked.word)
    if asked.options.get(ARCHIVE.name) == "" or "" in asked.archives:
        raise wrong(f"{ARCHIVE.name} wants a folder", asked.word)
    if asked.archives and asked.word in READING_AT and not asked.has(AT):
        raise wrong(f"{ARCHIVES.name} needs {AT.name}", asked.word)


def _check_abouts(asked: Asked) -> None:
    """Raises `WrongWords` for what gives no key and text of an about, and for a key that has no name."""
    for given in asked.abouts:
        key, mark, _ = given.partition("=")
        if not key or not mark:
            raise wrong(f"{NOTE.name} wants {NOTE.value}, as why=TEXT, not {shown(given)}", asked.word)
    keys = [given.partition("=")[0] for given in asked.abouts]
    for key, option in (("by", NO_BY), ("when", NO_WHEN)):
        if key in keys and asked.has(option):
            raise wrong(f"{NOTE.name} {key}=TEXT beside {option.name}", asked.word)
    if len(set(keys)) < len(keys):
        raise wrong(f"{NOTE.name} has a key twice", asked.word)
    if "" in asked.shown_keys:
        raise wrong(f"{NOTE_SHOWN.name} wants a key", asked.word)
    other = next((option for option in (YAML_RECORDS, JSON_RECORDS) if asked.has(option)), None)
    if asked.shown_keys and other:
        raise wrong(f"{NOTE_SHOWN.name} beside {other.name}, which writes all keys", asked.word)


def range_of(text: str) -> tuple[int, int]:
    """The first and the last number of what is to be undone. Raises `WrongWords`."""
    first, dots, last = text.partition("..")
    for number in (first, last) if dots else (first,):
        _check_number(UNDO, "N", number)
    least, most = int(first), int(last if dots else first)
    if not 1 <= least <= most:
        raise wrong(f"N wants numbers from 1 on, the smaller one first, not {shown(text)}", UNDO)
    return least, most


def _check_several(asked: Asked) -> None:
    """Raises `WrongWords` for several values, or all configurations, without what they need, or beside one."""
    if asked.word is EXPORT and ("NAME" in asked.arguments) == asked.has(ALL):
        raise wrong(f"either NAME or {ALL.name} is needed", asked.word)
    if asked.has(ALL) and not asked.options[ALL.name]:
        raise wrong(f"{ALL.name} wants a folder", asked.word)
    if asked.word is GET and asked.repeated:
        if asked.has(DEFAULT) or asked.has(NO_NEWLINE):
            raise wrong(f"{DEFAULT.name} and {NO_NEWLINE.name} take one POINTER", asked.word)
        if not any(asked.has(option) for option in (RAW, JSON, ENVIRONMENT)):
            raise wrong(f"several pointers need {RAW.name}, {JSON.name} or {ENVIRONMENT.name}", asked.word)
