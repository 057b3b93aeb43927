"""The words of confstorectl, as a table: its help, its completions and its man page are made of it."""

from __future__ import annotations


class Argument:
    """An argument of a word, which may be left out if it is optional, and may be there many times if it is repeated."""

    def __init__(self, name: str, about: str, is_optional: bool = False, is_repeated: bool = False) -> None:
        self.name, self.about, self.is_optional, self.is_repeated = name, about, is_optional, is_repeated


class Option:
    """An option. What comes after it is named `value`, if anything does. It may be given again if it is repeated."""

    def __init__(self, name: str, about: str, value: str = "", is_repeated: bool = False) -> None:
        self.name, self.about, self.value, self.is_repeated = name, about, value, is_repeated


class Word:
    """A word, with a line about it, its options and arguments, further sentences, and lines that show it. What follows
    `--` behind its needed arguments is a command, if it takes one. `common` has the options that most words have."""

    def __init__(
        self,
        name: str,
        about: str,
        options: tuple[Option, ...],
        arguments: tuple[Argument, ...],
        details: tuple[str, ...],
        examples: tuple[str, ...],
        takes_command: bool = False,
        common: tuple[Option, ...] | None = None,
    ) -> None:
        self.name, self.about, self.options, self.arguments = name, about, options, arguments
        self.details, self.examples, self.takes_command = details, examples, takes_command
        self.common = COMMON if common is None else common

    @property
    def usage(self) -> str:
        """How it is written, without the options that all words have."""
        options = [f"[{option.name} {option.value}]" if option.value else f"[{option.name}]" for option in self.options]
        needed = [argument.name for argument in self.arguments if not argument.is_optional]
        more = [argument.name + " .." * argument.is_repeated for argument in self.arguments if argument.is_optional]
        shown = " [".join(["", *more])[1:] + "]" * len(more)
        command = ["[-- COMMAND ..]"] if self.takes_command else []
        return " ".join(["confstorectl", self.name, *options, *needed, *([shown] if more else []), *command])


SOCKET = Option("--socket", "The socket of the server or the node that holds the store", "PATH")
WAIT = Option("--wait", "Tries again for so many seconds while another run holds the store", "SECONDS")
HELP = Option("--help", "Says what the word does")
VERSION = Option("--version", "Writes the version")

# The options of each word that may go to a server, and those of the words that the program does with a store.
COMMON = (SOCKET, WAIT, HELP)
WITHOUT_SERVER = (WAIT, HELP)

AT = Option("--at", "Reads the store as it was after command number N", "N")
FROM = Option("--from", "Begins with change number N, which may have been made already", "N")
RAW = Option("--raw", "Writes a text as it is, with a line feed after it")
INIT = Option("--init", "Makes a store in the folder, if it has none")
ANY_ROOT = Option("--any-root", "Takes a text that is one value alone, too, as `80`")
WHOLE = Option("--whole", 'Allows the pointer "", which stands for the whole configuration')
FORMAT = Option("--from", "Reads a text of another format, as yaml, toml, ini, env, properties or json5", "FORMAT")
DOCUMENT = Option("--document", "Of a YAML text with several documents takes number N, from 1", "N")
SPLIT = Option("--split", "Imports each document of a YAML text; {n} in NAME stands for its number")
DIR = Option("--dir", "Imports each file of the folder DIR; {file} in NAME stands for its name", "DIR")
CHECK = Option("--check", "Makes the change only if COMMAND, of a shell, takes the text that comes of it", "COMMAND")
DRY_RUN = Option("--dry-run", "Writes what would change, as `diff -u` does, and changes nothing")
PARENTS = Option("--parents", "Makes the mappings that are missing on the way")
INSERT = Option("--insert", "Inserts the value before the element at an index of a list")
IF_VALUE = Option("--if-value", "Changes the store only if this text is at the place that is changed", "TEXT")
IF_ABSENT = Option("--if-absent", "Changes the store only if nothing is at the place that is changed")
IF_COUNT = Option("--if-count", "Changes the store only if it has accepted N commands", "N")
EXPLAIN = Option("--explain", "Shows the line at fault of a refused text, and says what to do")
YAML_VALUE = Option("--yaml", "Reads VALUE, or standard input if that is `-`, as a YAML text")
FROM_FILE = Option(
    "--file", "Takes the bytes of FILE, or of standard input for `-`, as the text, in place of VALUE", "FILE"
)
YAML_RECORDS = Option("--yaml", "Writes the records as they stand in store.yaml")
VALUES = Option("--values", "Writes the value of each import and set, too, as a JSON text")
HIDE = Option(
    "--hide", "Writes `hidden` for what is at POINTER, or below it; needs --values or --json; may be given again",
    "POINTER", is_repeated=True,
)  # fmt: skip
SETTLE = Option("--settle", "Runs COMMAND once for the changes that come within so many seconds", "SECONDS")
DEFAULT = Option(
    "--default", "Writes TEXT where nothing is at the place; `--default=TEXT` if it begins with `-`", "TEXT"
)
NO_NEWLINE = Option("--no-newline", "Writes no line feed after the text; needs `--raw`")
JSON = Option("--json", "Writes a JSON text on one line; each text is a string")
JSON_NAMES = Option("--json", "Writes a JSON array on one line")
PLAIN = Option("--plain", "Writes texts as 80, true and null without quotes, for readers with types")

# That of `copy` alone.
REPLACE = Option("--replace", "Replaces a configuration that has the name TO")

# Those of each word that changes what is at one place.
CONDITIONS = (IF_VALUE, IF_ABSENT, IF_COUNT)

# Those of each word that changes a configuration: who changes it, when and why.
NOTE = Option(
    "--about", "Notes a text of the change under a key, as why=TEXT; may be given again", "KEY=TEXT", is_repeated=True
)
NO_BY = Option("--no-by", "Does not note the login name as `by`")
NO_WHEN = Option("--no-when", "Does not note the time as `when`")
NOTED = (NOTE, NO_BY, NO_WHEN)

# That of the words that tell of abouts.
NOTE_SHOWN = Option(
    "--about", "Shows what is noted under KEY, in place of `by`, `when` and `why`; may be given again", "KEY",
    is_repeated=True,
)  # fmt: skip
JSON_RECORDS = Option("--json", "Writes each command as a JSON object on one line, with its values")

# Those of the words that change a configuration, which confstore does not have.
CHECKED = (CHECK,)
PLANNED = (CHECK, DRY_RUN)

# Those of `set` for which what is there says where the value is set.
SHAPED = (PARENTS, INSERT)

# Those of the words that tell what changed, or that change something back.
TO_NUMBER = Option("--to", "Goes as far as command number N", "N")
SINCE = Option("--from", "Begins with what the store was after command number N", "N")
FIRST = Option("--from", "Begins with command number N", "N")
LINES = Option("--lines", "Writes a line for what was at each place, and one for what is there then")
OF_FILES = Option("--files", "Compares two files, which stand in the places of FOLDER and NAME")
HIDE_VALUES = Option(
    "--hide", "Leaves out what is at POINTER, or below it; may be given again", "POINTER", is_repeated=True
)
DELETE_MISSING = Option("--delete", "Removes each configuration that has no file")

# That of `checkpoint` which makes an archive, and that of the words that look into archives.
ARCHIVE = Option("--archive", "Makes the new store NEW before, which has all that the checkpoint drops", "NEW")
ARCHIVES = Option(
    "--archive", "Looks into the store DIR, too, which `checkpoint --archive` made; may be given again", "DIR",
    is_repeated=True,
)  # fmt: skip

# That of `import` which records edits, and those of the words that write several values or configurations.
EDITS = Option("--edits", "Records the edits that make the text of what is there, in place of the whole text")
ALL = Option("--all", "Writes each configuration into the file NAME.yaml of the folder DIR, in place of NAME", "DIR")
ENVIRONMENT = Option("--env", "Writes lines that set variables of sh and of systemd")

# Those of `import` for texts of other formats, which confstore does not have.
FOREIGN = (FORMAT, DOCUMENT, SPLIT, DIR)

# Those of the words that confstore has alone.
GROUP = Option("--group", "Syncs once for all commands that one read brings, and then answers them")
CHECKPOINT_AFTER = Option(
    "--checkpoint-after", "Makes a checkpoint each time the file has grown by so many bytes; needs `--group`", "BYTES"
)
IN_PLACE = Option("--in-place", "Replaces each FILE that would change by its text in the one style; also `-i`")
DROP_COMMENTS = Option("--drop-comments", "Replaces a FILE with comments too, which are lost")
KEEP_COMMENTS = Option("--keep-comments", "Keeps the comments of each text; of `check`, wants them so")
KEEP_DROPPED = Option("--keep-dropped", "Writes what an opening drops, or is refused for, to the new file FILE", "FILE")
CHECK_ONLY = Option("--check", "Changes nothing, and names each FILE that would change")

FOLDER = Argument("FOLDER", "The store's folder")
NAME = Argument("NAME", "The name of the configuration")
POINTER = Argument("POINTER", "A JSON Pointer (RFC 6901), as /port or /tags/0")
POINTERS = Argument(
    "POINTER", "JSON Pointers, as /port; the whole configuration if none is given", True, True
)
WHOLE_POINTER = Argument("POINTER", "A JSON Pointer, as /port; the whole configuration if it is left out", True)
VALUE = Argument("VALUE", "The value; after `--` if it begins with `-` and is no number", True)
TO = Argument("TO", "The other name; after `--` if it begins with `-`")
FROM_POINTER = Argument("FROM", "A JSON Pointer to what is moved, as /port")
TO_POINTER = Argument("TO", "A JSON Pointer to where it is put, as /http/port")
FILE = Argument("FILE", "The file of the text; standard input if it is left out or `-`", True)
TEMPLATE = Argument("TEMPLATE", "The file of the template; standard input for `-`")
NEW = Argument("NEW", "The folder of the new store")
FILES = Argument("FILE", "The files of the texts; standard input if none is given, or for `-`", True, True)
WATCHED_NAME = Argument("NAME", "The configuration; all of them if it is left out", True)

IMPORT = Word(
    "import",
    "Reads a YAML text, and puts its tree under a name",
    (INIT, ANY_ROOT, EXPLAIN, EDITS, *CONDITIONS, *PLANNED, *NOTED, *FOREIGN),
    (FOLDER, NAME, FILE),
    (
        "A configuration that has the name is replaced. Nothing is printed where it is done. Comments and quotes are"
        " not kept, and `3` is written `\"3\"`. A folder without a store is refused (NotAStore), and stays as it is,"
        " unless `--init` is given. A text that is one value alone, as `80`, is refused (OneValue) unless `--any-root`"
        " is given: mostly it is a file of another format. If a condition does not hold, nothing changes (Unmet).",
        "With `--from` the text is of another format, or is YAML with what a store does not have: aliases and merges"
        " are expanded, tags are dropped, and standard error says which. Several documents or files are imported all or"
        " none, and what comes of them is read by the program. In yaml, json5, ini, env and properties each value keeps"
        " its spelling, so that 3.10, 0x1F, yes and null are those texts. In toml a float does; an integer, a truth"
        " value, a date and a time get the plain form, as 31, true and 1979-05-27T07:32:00Z. An env text in which"
        " readers would replace a variable, or differ, is refused, with what to write instead; the keys of properties"
        " are not cut at dots.",
        "With `--edits` the log says what changed: the record has the edits that make the tree of what is there, unless"
        " nothing of that stays, or they have over 1,024 bytes and the whole text is shorter. A text that changes"
        " nothing is not recorded.",
        "`--dir` takes the files of DIR itself that have an ending of the format: .yaml, .yml; .toml; .ini, .cfg,"
        " .conf; .env; .properties; .json5, .json, .jsonc. What a name can't have of a file's name becomes `-`.",
    ),
    (
        "confstorectl import store web web.yaml",
        "confstorectl import --init store web web.yaml",
        "confstorectl import store web web.yaml --if-absent",
        "confstorectl import store web web.yaml --edits",
        "printf 'port: 80\\n' | confstorectl import store web",
        "confstorectl import --from toml store app pyproject.toml",
        "confstorectl import --from yaml --document 2 store web all.yaml",
        "confstorectl import --from yaml --split store 'web-{n}' all.yaml",
        "confstorectl import --from ini --dir /etc/app.d store 'app-{file}'",
    ),
)
SET = Word(
    "set",
    "Sets the value at a JSON Pointer of a configuration",
    (YAML_VALUE, FROM_FILE, WHOLE, EXPLAIN, *SHAPED, *CONDITIONS, *PLANNED, *NOTED),
    (FOLDER, NAME, POINTER, VALUE),
    (
        "VALUE is the text itself. With `--yaml` it is read as a YAML text, so that a list or a mapping can be set;"
        " then `-` stands for standard input. With `--file` in place of VALUE, the bytes of FILE are the text, also a"
        " line feed at their end; they have to be UTF-8. The pointer \"\" needs `--whole`: it stands for the whole"
        " configuration."
        " The step `-` stands for the place behind the last element of a list. Nothing is printed where it is done.",
        "The mapping or the list that the place is in has to be there (NoSuchPlace). With `--parents`, mappings are made"
        " where a step of the pointer finds no member; a new configuration is not made. With `--insert`, the pointer"
        " ends with the index of an element: the value comes before it, and the elements from there on move back by"
        " one. The index may be the length of the list, or `-` for that. Through a socket both are tried again where"
        " somebody changes the configuration meanwhile.",
        "If a condition does not hold, nothing changes (Unmet).",
    ),
    (
        "confstorectl set store web /port 80",
        "confstorectl set store web /tags '[a, b]' --yaml",
        "confstorectl set store web /tags/- c",
        "confstorectl set store web /tags/0 first --insert",
        "confstorectl set store web /tls/cert /etc/cert.pem --parents",
        "confstorectl set store web /port 81 --if-value 80",
        "confstorectl set store web /port 81 --about why='a second server' --about ticket=OPS-7",
        "confstorectl set store web /key --file key.pem",
    ),
)
DELETE = Word(
    "delete",
    "Removes a configuration, or what is at a JSON Pointer of it",
    (WHOLE, *CONDITIONS, *PLANNED, *NOTED),
    (FOLDER, NAME, WHOLE_POINTER),
    (
        "Nothing is printed where it is done. Without POINTER the whole configuration is removed; the pointer \"\""
        " needs `--whole`. If a condition does not hold, nothing changes (Unmet).",
    ),
    (
        "confstorectl delete store web /tags/0",
        "confstorectl delete store web",
        "confstorectl delete store web --if-count 12",
    ),
)
COPY = Word(
    "copy",
    "Puts a copy of a configuration under another name",
    (REPLACE, *CONDITIONS, *PLANNED, *NOTED),
    (FOLDER, NAME, TO),
    (
        "A configuration that has the name TO is replaced only with `--replace`, or where `--if-value` holds of it; else"
        " nothing changes (Unmet). All of it is done or nothing, in one command. Nothing is printed where it is done. If"
        " a condition does not hold, nothing changes (Unmet); `--if-value` looks at TO.",
    ),
    (
        "confstorectl copy store web web-old",
        "confstorectl copy store web web-old --replace",
    ),
)
RENAME = Word(
    "rename",
    "Gives a configuration another name",
    (*CONDITIONS, *PLANNED, *NOTED),
    (FOLDER, NAME, TO),
    (
        "A configuration that has the name TO is replaced, unless `--if-absent` is given; it keeps the place of TO"
        " among the names, and a new name comes last. All of it is done or nothing, in one command. Nothing is printed"
        " where it is done. If a condition does not hold, nothing changes (Unmet); `--if-value` and `--if-absent` look"
        " at TO.",
    ),
    (
        "confstorectl rename store web site",
        "confstorectl rename store web site --if-absent",
    ),
)
MOVE = Word(
    "move",
    "Moves what is at a JSON Pointer of a configuration to another place of it",
    (*CONDITIONS, *PLANNED, *NOTED),
    (FOLDER, NAME, FROM_POINTER, TO_POINTER),
    (
        "What is at FROM is deleted, and then set at TO, in place of what is there, unless `--if-absent` is given. The"
        " steps of TO are taken once FROM is deleted: behind an element of a list that is moved, indexes are one less."
        " The mapping or the list that TO is in has to be there (NoSuchPlace), and it may not be in FROM. All of it is"
        " done or nothing, in one command. Nothing is printed where it is done. If a condition does not hold, nothing"
        " changes (Unmet); `--if-value` and `--if-absent` look at TO, before anything is deleted.",
    ),
    (
        "confstorectl move store web /port /http/port",
        "confstorectl move store web /tags/0 /tags/-",
    ),
)
EDIT = Word(
    "edit",
    "Opens a configuration in an editor, and imports what is saved",
    (*CHECKED, *NOTED),
    (FOLDER, NAME),
    (
        "The editor is VISUAL, else EDITOR, else vi. It has the text in a private file. A text that is refused is"
        " opened again, with comment lines before it that say why; they are taken out again. One that is left as it"
        " is then,"
        " or that is empty, changes nothing, and so does an editor that fails. Where the configuration was changed"
        " meanwhile, the edited text is refused (Unmet), so that nobody's change is lost. The file is removed, unless"
        " it has a text that was not taken; then a line says where it is. Comments are not kept.",
    ),
    (
        "confstorectl edit store web",
        "confstorectl edit --wait 10 store web",
    ),
)
BATCH = Word(
    "batch",
    "Makes all edits of a list, or none of them",
    (EXPLAIN, IF_COUNT, *PLANNED, *NOTED),
    (FOLDER, FILE),
    (
        "The text is a YAML list. Each edit is a mapping with the keys `import` and `text`, or `import` and `tree`; or"
        " `set`, `path` and `value`; or `delete` and `path`; in this order. The path \"\" stands for the whole"
        " configuration. Nothing is printed where it is done.",
    ),
    (
        "confstorectl batch store edits.yaml",
        "echo '[{set: web, path: /port, value: 81}, {delete: old, path: \"\"}]' | confstorectl batch store",
    ),
)
UNDO = Word(
    "undo",
    "Takes back what commands have changed",
    (ARCHIVES, IF_COUNT, *PLANNED, *NOTED),
    (FOLDER, Argument("N", "The number of a command, or `N..M` for those from N to M"), WATCHED_NAME),
    (
        "Each place that the commands changed gets the value that it had before, by one batch, which is recorded and"
        " can be undone. Where a place has another value than they left there, nothing is changed (Unmet), and the fault"
        " says which places these are. Mappings are compared key by key, and lists element by element where none was"
        " added or taken out; another list is one place. A change that comes meanwhile is looked at in the same way."
        " Commands that a checkpoint dropped need their archive (see `log`). Where the change is noted, `why` is"
        " `undo of N`, unless it is given.",
    ),
    (
        "confstorectl undo store 12",
        "confstorectl undo store 12..14 web --dry-run",
        "confstorectl undo store 3 --archive store-until-may",
    ),
)
ROLLBACK = Word(
    "rollback",
    "Makes a configuration what it was after a command",
    (TO_NUMBER, ARCHIVES, IF_COUNT, *PLANNED, *NOTED),
    (FOLDER, NAME),
    (
        "`--to` is needed. The edits that this takes are one batch, which is recorded and can be undone. All changes of"
        " the configuration since then are dropped, so look at them first (`diff`). Where it is changed meanwhile,"
        " nothing is changed (Unmet); `--if-count` says up to which number you have looked. One that was not there then"
        " is removed. With `--archive` the command may be one that a checkpoint dropped (see `log`).",
    ),
    (
        "confstorectl rollback store web --to 11",
        "confstorectl rollback store web --to 11 --if-count 14",
    ),
)
SYNC = Word(
    "sync",
    "Makes the configurations what the files of a folder have",
    (DELETE_MISSING, EXPLAIN, IF_COUNT, *PLANNED, *NOTED),
    (FOLDER, Argument("DIR", "The folder of the files, each NAME.yaml")),
    (
        "What will change is written first, as `diff -u` does. Then it is changed by one batch of edits, all or"
        " nothing, and only where no other command came since the store was read. Where one did, it is read again, and"
        " changed if that takes the same edits; else nothing is changed (Unmet). A configuration without a file stays, unless"
        " `--delete` is given. A folder without such a file is refused (NothingToImport).",
    ),
    (
        "confstorectl sync store conf.d --dry-run",
        "confstorectl sync store conf.d --delete",
    ),
)
CHECKPOINT = Word(
    "checkpoint",
    "Makes the store file as short as its state",
    (ARCHIVE,),
    (FOLDER,),
    (
        "What earlier commands were is gone then. A replicated node makes its checkpoints itself.",
        "With `--archive` NEW gets them first: it is made as by `backup`, with all that the file has, and is read by"
        " the option `--archive` of other words (see `log`). It is refused if it has a store (StoreExists). The checkpoint is made only while no command came since NEW was copied; else it is"
        " copied again. Where a server holds the store, the user has to be allowed to read FOLDER, and the server is"
        " asked for the checkpoint. Then NEW is best on the device of FOLDER: commands may come meanwhile, and NEW gets"
        " them too. On another device it is copied five times at most until none came between; then nothing is changed"
        " (Unmet).",
    ),
    (
        "confstorectl checkpoint store",
        "confstorectl checkpoint store --archive store-until-may",
    ),
)
EXPORT = Word(
    "export",
    "Writes a configuration",
    (JSON, PLAIN, ALL),
    (FOLDER, Argument("NAME", "The name of the configuration; needed without `--all`", True)),
    (
        "The configuration is written in the one style, which quotes `80` and `true`, since they are texts. With"
        " `--json` it is a JSON text, each text a string. With `--plain` such texts stand without quotes, so that"
        " readers with types take them for numbers; then they do so with a version 1.10, too.",
        "With `--all` each configuration is written into a file of its own: NAME.yaml, or NAME.json with `--json`. DIR"
        " is made if it is missing, and refused if it has a store (StoreExists). A file is replaced whole, with its mode"
        " and owner, and only if it changes; other files stay. Two configurations may be of two moments; those that"
        " `confstore export --all` writes are of one.",
    ),
    (
        "confstorectl export store web",
        "confstorectl export store --all conf.d",
        "confstorectl export store web --json",
    ),
)
NAMES = Word(
    "names",
    "Writes the names of the configurations, a line each",
    (JSON_NAMES, AT, ARCHIVES),
    (FOLDER,),
    ("With `--archive` command number N may be one that a checkpoint dropped (see `log`).",),
    (
        "confstorectl names store",
        "confstorectl names store --at 12",
    ),
)
GET = Word(
    "get",
    "Writes the value at a JSON Pointer of a configuration",
    (RAW, NO_NEWLINE, JSON, PLAIN, ENVIRONMENT, DEFAULT, AT, ARCHIVES),
    (FOLDER, NAME, POINTERS),
    (
        "The value is written in the one style. With `--raw` a text is written as it is, with a line feed after it, or"
        " with nothing after it for `--no-newline`; a list or a mapping is refused (NotText). With `--json` the value"
        " is a JSON text, each text a string. With `--plain` texts as 80 and true stand without quotes, for readers"
        " with types. With `--default` that text is written where no configuration has the name, or nothing is at the"
        " pointer.",
        "Several pointers need `--raw` or `--json`, for a line each, or `--env`. The values are of one moment. With"
        " `--env` each text at a pointer, or in what is there, is a line `port=\"80\"`, by which sh and systemd"
        " (EnvironmentFile=) set the variable port to exactly this text. The name is made of the steps that lead to the"
        " text, with `_` between them and in the place of what a name can't have; two places of one name are refused"
        " (NameTwice).",
        "With `--archive` command number N may be one that a checkpoint dropped (see `log`).",
    ),
    (
        "confstorectl get store web /port --raw",
        "confstorectl get store web /host /port --raw",
        "confstorectl get store web --env > web.env",
        "confstorectl get store web",
        "confstorectl get store web /port --at 12",
        "confstorectl get store web /port --at 3 --archive store-until-may",
        "confstorectl get store web /port --raw --default 80",
    ),
)
KEYS = Word(
    "keys",
    "Writes the keys of a mapping, or the indexes of a list, a line each",
    (AT, ARCHIVES),
    (FOLDER, NAME, WHOLE_POINTER),
    (
        "A key that begins with a double quote or holds what is not shown, as a line break, is written in double"
        " quotes, and so is the empty one. A text has no keys (NotCollection).",
        "With `--archive` command number N may be one that a checkpoint dropped (see `log`).",
    ),
    (
        "confstorectl keys store web",
        "confstorectl keys store web /tags",
    ),
)
EXISTS = Word(
    "exists",
    "Tells whether something is at a JSON Pointer, by the status",
    (AT, ARCHIVES),
    (FOLDER, NAME, WHOLE_POINTER),
    (
        "Nothing is written. The status is 0 if something is at the pointer, and 1 if nothing is there or no"
        " configuration has the name. Without POINTER it is 0 if the configuration is there.",
        "With `--archive` command number N may be one that a checkpoint dropped (see `log`).",
    ),
    ("confstorectl exists store web /port && echo there",),
)
RENDER = Word(
    "render",
    "Writes a template with values of the store in it",
    (),
    (FOLDER, TEMPLATE, Argument("FILE", "The file that is written; standard output if it is left out", True)),
    (
        "In the template `{{ web/port }}` stands for the text at the pointer /port of the configuration web. Between"
        " `{% for host in web/hosts %}` and `{% end %}` it is written once for each element of a list or value of a"
        " mapping, and `{{ host }}` or `{{ host/name }}` is of that; `{% for key, host in web/hosts %}` has the key or"
        " the index, too. A line with such a tag alone is not written. `{{ web/port | sh }}` is quoted for sh, and"
        " `{{ web/hosts | json }}` is a JSON text, each text a string. `{{ \"{{\" }}` writes two braces. What is not"
        " there, or is no text, is refused with its place, and nothing is written.",
        "FILE is replaced whole, with its mode and owner, only if it changes; then COMMAND is run, with CONFSTORE_FILE"
        " in its environment. If that fails the status is 1 (CommandFailed), and FILE stays as it was written. Each"
        " configuration is read once; two of them may be of two moments.",
    ),
    (
        "confstorectl render store site.conf.template",
        "confstorectl render store site.conf.template /etc/nginx/site.conf -- nginx -s reload",
    ),
    True,
)
LOG = Word(
    "log",
    "Writes the commands since the last checkpoint",
    (VALUES, HIDE, YAML_RECORDS, JSON_RECORDS, NOTE_SHOWN, FIRST, TO_NUMBER, AT, ARCHIVES),
    (FOLDER, Argument("NAME", "The configuration of which the commands are written; all if it is left out", True)),
    (
        "Each command is one line, as `2 set web \"/port\"`: its number, what it did, and where. Who made it, when and"
        " why stand behind the number where they are noted, as `2 by \"ann\" why \"a trial\" set web \"/port\"`. With"
        " `--about` other keys stand there. With `--json` a command is a JSON object: `at`, `by`, `when` and `why`, all"
        " of `about`, and `edits` as `batch` takes them; `(hidden)` stands for what `--hide` leaves out. With `--values` the"
        " value of an import or a set follows as a JSON text, as `2 set web \"/port\" \"80\"`. With NAME only commands"
        " are written that change this configuration; a batch that does is written whole. `--to` and `--at` are the"
        " same.",
        "With `--hide POINTER` the word `hidden` stands for what is at the JSON Pointer of any configuration, or below"
        " it. An index is the one that the command names, and `-` is taken for every index: hide a list whole.",
        "With `--archive` the commands are those of the archives and of the store, each once. The archives may be given"
        " in any order: their numbers say which one is older. Where a number is in none of them nothing is written"
        " (Gap). Where an archive has another state or other commands than what follows it, it is one of another store"
        " (OtherArchive).",
    ),
    (
        "confstorectl log store",
        "confstorectl log store web --from 12",
        "confstorectl log store --values",
        "confstorectl log store --about ticket --about by",
        "confstorectl log store --json",
        "confstorectl log store --values --hide /key",
        "confstorectl log store --yaml",
        "confstorectl log store web --archive store-until-may --archive store-until-june",
    ),
)
VERIFY = Word(
    "verify",
    "Reads the whole store file, and writes whether it can be opened",
    (KEEP_DROPPED,),
    (FOLDER,),
    (
        "The answer is a YAML mapping. Of a damaged store it says where the damage begins; then the status is 1. With"
        " `--keep-dropped FILE` all bytes that follow the last record are kept in FILE, which is made for them, and"
        " refused if it is there (FileExists).",
    ),
    ("confstorectl verify store", "confstorectl verify store --keep-dropped dropped.bin"),
)
WATCH = Word(
    "watch",
    "Writes each change as it is made",
    (VALUES, YAML_RECORDS, FROM, SETTLE),
    (FOLDER, WATCHED_NAME, Argument("POINTER", "A JSON Pointer; what is at, above or below it is watched", True)),
    (
        "Each change is one line, as of `log`; with `--values` the value of an import or a set follows as a JSON text,"
        " and with `--yaml` it is its record, which has the values. With a name, and a pointer, these are the changes"
        " that may change what is there. It begins after the last change that there is,"
        " and goes on over checkpoints and over servers that end and begin, until it is ended. Where the folder can't"
        " be read, the server at the socket tells the changes, and is waited for a minute where it ends.",
        "Where a checkpoint dropped changes before they were seen, the line `5-9 cut` stands in their place; with"
        " `--yaml` it is a document with the key `cut`, and the numbers `first` and `last`. The line"
        " `after 4 replaced`, or the key `replaced`, says that the store has another history than before, as that of a"
        " backup, whose changes after number 4 follow.",
        "With `-- COMMAND` nothing is written. COMMAND is run for each change, one run after the other, or once for the"
        " changes that come within `--settle` after the first of them; also for a `cut` and a `replaced`. Its standard"
        " input has their lines with the values, or their records with `--yaml`. In its environment are"
        " CONFSTORE_FOLDER, CONFSTORE_NAME (the name that is watched, or those that were changed, with a space"
        " between),"
        " CONFSTORE_NUMBER (of the last change), and CONFSTORE_CHANGES: the lines, but nothing of more than 100,000"
        " bytes. If it fails a line says so (CommandFailed), and the next change is waited for.",
    ),
    (
        "confstorectl watch store",
        "confstorectl watch store web /port --yaml",
        "confstorectl watch store --from 1",
        "confstorectl watch store web --settle 2 -- systemctl reload nginx",
        "confstorectl watch store web -- confstorectl render store t /etc/app.conf -- systemctl reload app",
    ),
    True,
)

DIFF = Word(
    "diff",
    "Writes what changed between two commands, or between two files",
    (SINCE, TO_NUMBER, LINES, HIDE_VALUES, OF_FILES, EXPLAIN, ARCHIVES),
    (FOLDER, WATCHED_NAME),
    (
        "It begins with the oldest state that the file has, which the last checkpoint left, and goes to the last"
        " command, unless numbers are given. Without `--lines` it writes the edits that make the second state of the"
        " first, as a list that `batch` takes; they are made in their order. A configuration is imported where its edits"
        " have over 1,024 bytes and the import is shorter. With `--lines` each place is a line as `- /port \"80\"`, or"
        " `+ /port \"81\"`, the value as a JSON text, in colours on a terminal (unless NO_COLOR is set); without NAME"
        " the name stands before the place. The order of keys and of configurations counts.",
        "The status is 0 if nothing differs, and 1 if something does, as of diff. `--hide` needs `--lines`.",
        "With `--archive` numbers before the last checkpoint may be given, and it begins with the oldest state that an"
        " archive has (see `log`).",
    ),
    (
        "confstorectl diff store web --from 11 --lines",
        "confstorectl diff store web --from 3 --lines --archive store-until-may",
        "confstorectl diff store --from 11 --to 12",
        "confstorectl diff --files old.yaml new.yaml --lines",
    ),
    common=WITHOUT_SERVER,
)
PAGE = Word(
    "page",
    "Writes a page of the log, a file of HTML for a browser",
    (HIDE_VALUES, ARCHIVES),
    (FOLDER,),
    (
        "It has each command since the last checkpoint with who made it, when and why, with the values before and after"
        " it, and the store at each number. It asks nothing of a network. Whoever may read it sees all values but those"
        " that `--hide` leaves out.",
        "With `--archive` it has those of the archives, too (see `log`).",
    ),
    (
        "confstorectl page store > log.html",
        "confstorectl page store --archive store-until-may > log.html",
        "confstorectl page store --hide /db/password > log.html",
    ),
    common=WITHOUT_SERVER,
)

INIT_STORE = Word(
    "init",
    "Makes a folder with an empty store",
    (),
    (FOLDER,),
    (
        "A folder that is there serves too. It is refused if it has a store (StoreExists), and so it is where a server"
        " holds that store.",
    ),
    ("confstorectl init store",),
    common=WITHOUT_SERVER,
)
RUN = Word(
    "run",
    "Performs the commands on standard input on the store in a folder",
    (GROUP, CHECKPOINT_AFTER),
    (FOLDER,),
    (
        "Each command is a YAML document that a line of `...` closes, and is answered by one, as confstore(1) says. The"
        " run holds the store. So a store that a server holds is refused (Locked): the server's socket takes the same"
        " commands, and `batch` makes edits through it. What would end this program by SIGTERM or SIGHUP ends the run.",
    ),
    (
        "confstorectl run store < commands.yaml",
        "confstorectl run store --group --checkpoint-after 1000000 < commands.yaml",
    ),
    common=WITHOUT_SERVER,
)
BACKUP = Word(
    "backup",
    "Makes a new store with the same base and records as another one",
    (),
    (FOLDER, NEW),
    (
        "Nothing is printed where it is done. The folder is read without a lock and stays as it is, so this runs beside"
        " a server that holds its store. NEW is made if it is missing, and is refused if it has a store (StoreExists).",
    ),
    ("confstorectl backup store store-of-monday",),
    common=WITHOUT_SERVER,
)
SALVAGE = Word(
    "salvage",
    "Makes a new store of what a damaged one says before its first bad piece",
    (KEEP_DROPPED,),
    (FOLDER, NEW),
    (
        "The folder is read and stays as it is, also where a server holds its store. NEW is made if it is missing, and"
        " is refused if it has a store (StoreExists). What was left out is written as `verify` writes it; its bytes are put"
        " into FILE first, as by `verify`.",
    ),
    ("confstorectl salvage store new-store", "confstorectl salvage store new-store --keep-dropped rest.bin"),
    common=WITHOUT_SERVER,
)
FORMAT_TEXT = Word(
    "format",
    "Writes the tree of a YAML text in the one style",
    (IN_PLACE, DROP_COMMENTS, KEEP_COMMENTS, CHECK_ONLY, EXPLAIN),
    (FILES,),
    (
        "It needs no store. One FILE, or standard input, is written to standard output. More of them need `--in-place`"
        " or `--check`. With `--check` the status is 1 where a FILE would change. Comments stay with `--keep-comments`.",
    ),
    (
        "confstorectl format < web.yaml",
        "confstorectl format --check a.yaml b.yaml",
    ),
    common=(HELP,),
)
CHECK_TEXT = Word(
    "check",
    "Writes where YAML texts depart from the one style",
    (KEEP_COMMENTS, EXPLAIN),
    (FILES,),
    ("It needs no store. Each finding is one line, and the status is 1 then. confstore(1) has the rules.",),
    ("confstorectl check web.yaml",),
    common=(HELP,),
)

CHANGING = (IMPORT, SET, DELETE, COPY, RENAME, MOVE, EDIT, BATCH, UNDO, ROLLBACK, SYNC, CHECKPOINT)
MOVING = (COPY, RENAME, MOVE)
READING = (EXPORT, NAMES, KEYS, GET, EXISTS, RENDER)
LOOKING_BACK = (LOG, DIFF, PAGE, VERIFY, WATCH)

# Those that read with `--at` what the store was.
READING_AT = (NAMES, KEYS, GET, EXISTS)

# The words that change a store by what its file says.
WITH_HISTORY = (UNDO, ROLLBACK, SYNC)

# The words that only the program does. Of these some read the standard input of confstorectl.
OF_PROGRAM = (INIT_STORE, RUN, BACKUP, SALVAGE, FORMAT_TEXT, CHECK_TEXT)
FED = (RUN, FORMAT_TEXT, CHECK_TEXT)

WORDS: dict[str, Word] = {word.name: word for word in (*CHANGING, *READING, *LOOKING_BACK, *OF_PROGRAM)}

# What others call a word or an option.
OTHER_NAMES = {
    "list": "names", "ls": "names", "show": "get", "cat": "get", "read": "get", "rm": "delete", "remove": "delete",
    "del": "delete", "unset": "delete", "cp": "copy", "mv": "rename", "move": "rename", "put": "set", "write": "set",
    "add": "set", "create": "init", "new": "init", "load": "import", "dump": "export", "history": "log",
    "compact": "checkpoint", "follow": "watch", "fmt": "format", "lint": "check", "version": "--version",
    "revert": "undo", "restore": "rollback", "reset": "rollback", "compare": "diff", "changes": "diff",
}  # fmt: skip

# Each group of words, with its heading.
GROUPS = (
    ("change a store", CHANGING),
    ("read a store", READING),
    ("look into its file", LOOKING_BACK),
    ("go to no server", OF_PROGRAM),
)
