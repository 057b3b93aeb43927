"""What the help and the man page of confstorectl say of all words, of statuses and of faults."""

from __future__ import annotations

ABOUT = "Changes and reads a store of confstore, also one that a server holds."

# What is said of all words, a paragraph each.
DESCRIPTION = (
    "The words are those of confstore, with the same arguments, output and statuses, and a few more. Each goes to the"
    " server or the replicated node that holds the store, through its socket, if there is one; else it is done by the"
    " program confstore, as the words always are that go to no server.",
    "The socket is the one of `--socket`, else that of the environment's CONFSTORE_SOCKET, else"
    " FOLDER/confstore.sock if a server listens there; and of a FOLDER in /var/lib/confstore it is"
    " /run/confstore/NAME/socket. With one that is given FOLDER only counts for the words and options that look into"
    " the file of a store: `log`, `diff`, `page`, `verify`, `watch` and `--at`, and those that change something back,"
    " `undo`, `rollback` and `sync`, and for `checkpoint --archive`. These read the folder, also beside a server, by the"
    " program, which is CONFSTORE or confstore on the PATH; where the folder can't be read, `watch` asks the server."
    " Where one that changes the store finds a server that has another store than FOLDER, nothing is changed"
    " (OtherStore).",
    "A socket that is not given is only used where its server has the store in FOLDER, and not where a copy of a folder"
    " has a link to the socket of the first one.",
    "With `--wait SECONDS` a word that finds the store locked, or no server at a socket that is given, tries again for"
    " so long. An argument that begins with `-` comes after `--`.",
    "With `--about KEY=TEXT` a change is recorded with who makes it, when and why, as `--about why=TEXT`; other keys"
    " are a team's own, as `ticket`. The environment's CONFSTORE_ABOUT gives such pairs, too, a line each. Then `by`, the"
    " login name, and `when`, the time, are added, unless they are given, or left out by `--no-by` and `--no-when`."
    " In a store that has had an about they are added without being asked for. A server and a node write both themselves."
    " There are at most 16 keys, of 64 characters each, and 4,096 bytes (AboutLarge). Older programs don't open a store"
    " that has had an about, and the first one drops the earlier commands from the file, as a checkpoint does:"
    " `checkpoint --archive` keeps them.",
    "With `--check COMMAND` a change is first made in a store of its own by the program, and each configuration that it"
    " gives is the standard input of COMMAND, in the one style, with its name in CONFSTORE_NAME. If COMMAND ends with"
    " another status than 0 nothing is changed (CheckFailed), and its last lines follow. The change is made only while"
    " the configurations are as COMMAND has seen them; else it is tried again. One that is removed is not looked at.",
)

# Each status, with what it means.
STATUSES = (
    ("0", "Done."),
    ("1", "A text, a command or a store was refused, or memory ran out."),
    ("2", "Wrong words."),
    ("3", "Reading or writing failed, the folder is missing or held, or no server answered."),
)

FAULTS = (
    "A fault is a line on standard error, as `confstorectl: Locked: ..`: its name, and what to do where that isn't"
    " plain. The names are those of confstore, and a few more. Another line may say the cause, as"
    " `store.yaml: No space left on device`. A text that is refused is named by its file, `-` for standard input, or"
    " VALUE, as `web.yaml:501:1: KeyTwice \"key250\" (first at 17:1)`. With `--explain`, or where standard error is a"
    " terminal, the line of the text follows, with a mark under the place, and what to do. Through a socket this needs"
    " the program, which looks at the text."
)

# The faults that confstore does not have, each with its status and with what it says.
OWN_FAULTS = (
    ("WrongWords", "2", "the words are none that confstorectl takes"),
    ("Disconnected", "3", "no server answers at the socket; a change that was sent was made or not"),
    ("TimedOut", "3", "no answer came within a minute; a change was made or not, or will be"),
    ("BadAnswer", "3", "what the server or the program said is no answer to the command, or more than that"),
    ("OtherStore", "3", "the server has another store than FOLDER, where it has to have that; nothing was sent"),
    ("Replaced", "1", "another store stands in the place of the one that the server held; nothing was changed"),
    ("Failed", "3", "a replicated node could not perform a command; the word behind it says why"),
    ("MissingProgram", "3", "there is no program confstore where it was looked for"),
    ("MissingModule", "3", "Python has no PyYAML, which some words need"),
    ("NotStarted", "3", "the system did not start the program"),
    ("Unknown", "3", "nobody says how the program ended"),
    ("Unsupported", "1", "a replicated node has no such word"),
    ("EditorFailed", "3", "the editor could not be started, or ended with another status than 0"),
    ("CheckFailed", "1", "the command of `--check`, or that of the server, has refused a text; nothing was changed"),
    ("CommandFailed", "1", "a command that was run has ended with another status than 0"),
    ("NothingToImport", "1", "no file of the folder has an ending of the format"),
    ("NothingToUndo", "1", "the commands have changed nothing of what was named"),
    ("Gap", "1", "commands are in none of the archives, and not in the store; nothing was written"),
    ("OtherArchive", "1", "an archive is one of another store; nothing was written"),
    ("NameTwice", "1", "two places would be one variable; nothing was written"),
    ("NoVariable", "1", "a text can't be a variable; nothing was written"),
)
