# Completion of confstorectl for fish: put it into a folder of `fish_complete_path`.
# python/pages_of_confstorectl.py makes this file of the table of words.

# The words that were written that are no options and no option's value: the word, and its arguments.
function __confstorectl_places
    set -l places
    set -l is_value 0
    for word in (commandline -opc)[2..-1]
        if test $is_value = 1
            set is_value 0
        else if contains -- $word --about --all --archive --at --check --checkpoint-after --default --dir --document --file --from --hide --if-count --if-value --keep-dropped --settle --socket --to --wait; and not contains -- "$places[1] $word" 'format --check'
            set is_value 1
        else if not string match -q -- '-?*' $word
            set -a places $word
        end
    end
    for place in $places
        echo $place
    end
end

# Whether so many arguments come before the one that is being written, after one of these words.
function __confstorectl_at
    set -l places (__confstorectl_places)
    test (count $places) -eq (math $argv[1] + 1)
    and begin
        test (count $argv) -eq 1
        or contains -- "$places[1]" $argv[2..-1]
    end
end

# Whether this is the word that was written.
function __confstorectl_is
    set -l places (__confstorectl_places)
    test "$places[1]" = $argv[1]
end

# The names of the configurations in the folder that was written.
function __confstorectl_names
    set -l places (__confstorectl_places)
    confstorectl names -- $places[2] 2>/dev/null
end

# Whether at least so many arguments come before the one that is being written, after this word.
function __confstorectl_from
    set -l places (__confstorectl_places)
    test (count $places) -gt $argv[1]
    and test "$places[1]" = $argv[2]
end

# The folder and the name that were written.
function __confstorectl_store
    set -l places (__confstorectl_places)
    string join -- \n $places[2..3]
end

# The pointer that is being written, without its quotes.
function __confstorectl_typed
    set -l word (commandline -ct | string collect)
    for closed in "$word" "$word'" "$word\""
        if set -l plain (string unescape -- "$closed" | string collect)
            string replace -r -- '^--hide=' '' "$plain"
            return
        end
    end
end

# The keys of these lines of `keys`, a NUL behind each: one that a line can't show as it is stands in quotes there. A key
# with a TAB is left out, since fish takes what is behind that for a description.
function __confstorectl_plain
    for key in $argv
        if string match -q -- '"*' $key
            set key (string sub -s 2 -e -1 -- $key | string replace -a '\\\\' '\u005C')
            string match -q -r -- '\\\\[0t]' "$key"
            and continue
            set key (string replace -a '\x' '\u00' -- "$key" | string replace -a '\"' '"')
            printf '%b\0' "$key"
        else
            printf '%s\0' $key
        end
    end
end

# What may follow the pointer that is being written, a NUL behind each: at most 1,000 pointers.
function __confstorectl_pointers
    set -l store (__confstorectl_store)
    set -l typed "$(__confstorectl_typed)"
    test (count $store) -eq 2
    and string match -q -r -- '^(/|$)' "$typed"
    or return
    string match -q -r -- '^~(/|$)' $store[1]
    and set store[1] $HOME(string sub -s 2 -- $store[1])
    set -l step "$(string replace -r -- '(?s)^.*/' '' "$typed")"
    set -l parent "$(string replace -r -- '[^/]*$' '' "$typed")"
    set -l keys (confstorectl keys -- $store "$(string replace -r -- '/$' '' "$parent")" 2>/dev/null)
    # A list has the indexes from 0 on, and takes a new element at `-`.
    test "$argv" = new -a "$keys[1]" = 0 -a "$keys[-1]" = (math (count $keys) - 1)
    and set -a keys -
    test -n "$parent"
    or set parent /
    set -l begin (string escape --style=regex -- "$step")
    set keys (string replace -a '~' '~0' -- $keys | string replace -a / '~1' | string match -r -- "^(?:\"|$begin).*")
    set -l found
    for key in (__confstorectl_plain $keys[1..1000] | string split0)
        string match -q -r -- "^$begin" "$key"
        and set -a found "$parent$key"
    end
    if test (count $found) -eq 1; and confstorectl keys -- $store $found >/dev/null 2>&1
        set found $found/
    end
    string join0 -- $found
end

complete -c confstorectl -f
complete -c confstorectl -n '__confstorectl_at -1' \
    -a import -d 'Reads a YAML text, and puts its tree under a name'
complete -c confstorectl -n '__confstorectl_at -1' \
    -a set -d 'Sets the value at a JSON Pointer of a configuration'
complete -c confstorectl -n '__confstorectl_at -1' \
    -a delete -d 'Removes a configuration, or what is at a JSON Pointer of it'
complete -c confstorectl -n '__confstorectl_at -1' \
    -a copy -d 'Puts a copy of a configuration under another name'
complete -c confstorectl -n '__confstorectl_at -1' -a rename -d 'Gives a configuration another name'
complete -c confstorectl -n '__confstorectl_at -1' \
    -a move -d 'Moves what is at a JSON Pointer of a configuration to another place of it'
complete -c confstorectl -n '__confstorectl_at -1' \
    -a edit -d 'Opens a configuration in an editor, and imports what is saved'
complete -c confstorectl -n '__confstorectl_at -1' -a batch -d 'Makes all edits of a list, or none of them'
complete -c confstorectl -n '__confstorectl_at -1' -a undo -d 'Takes back what commands have changed'
complete -c confstorectl -n '__confstorectl_at -1' \
    -a rollback -d 'Makes a configuration what it was after a command'
complete -c confstorectl -n '__confstorectl_at -1' \
    -a sync -d 'Makes the configurations what the files of a folder have'
complete -c confstorectl -n '__confstorectl_at -1' \
    -a checkpoint -d 'Makes the store file as short as its state'
complete -c confstorectl -n '__confstorectl_at -1' -a export -d 'Writes a configuration'
complete -c confstorectl -n '__confstorectl_at -1' \
    -a names -d 'Writes the names of the configurations, a line each'
complete -c confstorectl -n '__confstorectl_at -1' \
    -a keys -d 'Writes the keys of a mapping, or the indexes of a list, a line each'
complete -c confstorectl -n '__confstorectl_at -1' \
    -a get -d 'Writes the value at a JSON Pointer of a configuration'
complete -c confstorectl -n '__confstorectl_at -1' \
    -a exists -d 'Tells whether something is at a JSON Pointer, by the status'
complete -c confstorectl -n '__confstorectl_at -1' \
    -a render -d 'Writes a template with values of the store in it'
complete -c confstorectl -n '__confstorectl_at -1' -a log -d 'Writes the commands since the last checkpoint'
complete -c confstorectl -n '__confstorectl_at -1' \
    -a diff -d 'Writes what changed between two commands, or between two files'
complete -c confstorectl -n '__confstorectl_at -1' \
    -a page -d 'Writes a page of the log, a file of HTML for a browser'
complete -c confstorectl -n '__confstorectl_at -1' \
    -a verify -d 'Reads the whole store file, and writes whether it can be opened'
complete -c confstorectl -n '__confstorectl_at -1' -a watch -d 'Writes each change as it is made'
complete -c confstorectl -n '__confstorectl_at -1' -a init -d 'Makes a folder with an empty store'
complete -c confstorectl -n '__confstorectl_at -1' \
    -a run -d 'Performs the commands on standard input on the store in a folder'
complete -c confstorectl -n '__confstorectl_at -1' \
    -a backup -d 'Makes a new store with the same base and records as another one'
complete -c confstorectl -n '__confstorectl_at -1' \
    -a salvage -d 'Makes a new store of what a damaged one says before its first bad piece'
complete -c confstorectl -n '__confstorectl_at -1' \
    -a format -d 'Writes the tree of a YAML text in the one style'
complete -c confstorectl -n '__confstorectl_at -1' \
    -a check -d 'Writes where YAML texts depart from the one style'
complete -c confstorectl -n '__confstorectl_at -1' -a help -d 'Says what a word does'
complete -c confstorectl -n 'not __confstorectl_is diff' -n 'not __confstorectl_is page' -n 'not __confstorectl_is init' -n 'not __confstorectl_is run' -n 'not __confstorectl_is backup' -n 'not __confstorectl_is salvage' -n 'not __confstorectl_is format' -n 'not __confstorectl_is check' -l socket -r -F \
    -d 'The socket of the server or the node that holds the store'
complete -c confstorectl -n 'not __confstorectl_is format' -n 'not __confstorectl_is check' -l wait -x \
    -d 'Tries again for so many seconds while another run holds the store'
complete -c confstorectl -l help -d 'Says what the word does'
complete -c confstorectl -n '__confstorectl_at -1' -l version -d 'Writes the version'
complete -c confstorectl -n '__confstorectl_is import' -l init \
    -d 'Makes a store in the folder, if it has none'
complete -c confstorectl -n '__confstorectl_is import' -l any-root \
    -d 'Takes a text that is one value alone, too, as `80`'
complete -c confstorectl -n '__confstorectl_is import' -l explain \
    -d 'Shows the line at fault of a refused text, and says what to do'
complete -c confstorectl -n '__confstorectl_is import' -l edits \
    -d 'Records the edits that make the text of what is there, in place of the whole text'
complete -c confstorectl -n '__confstorectl_is import' -l if-value -x \
    -d 'Changes the store only if this text is at the place that is changed'
complete -c confstorectl -n '__confstorectl_is import' -l if-absent \
    -d 'Changes the store only if nothing is at the place that is changed'
complete -c confstorectl -n '__confstorectl_is import' -l if-count -x \
    -d 'Changes the store only if it has accepted N commands'
complete -c confstorectl -n '__confstorectl_is import' -l check -x \
    -d 'Makes the change only if COMMAND, of a shell, takes the text that comes of it'
complete -c confstorectl -n '__confstorectl_is import' -l dry-run \
    -d 'Writes what would change, as `diff -u` does, and changes nothing'
complete -c confstorectl -n '__confstorectl_is import' -l about -x \
    -d 'Notes a text of the change under a key, as why=TEXT; may be given again'
complete -c confstorectl -n '__confstorectl_is import' -l no-by -d 'Does not note the login name as `by`'
complete -c confstorectl -n '__confstorectl_is import' -l no-when -d 'Does not note the time as `when`'
complete -c confstorectl -n '__confstorectl_is import' -l from -x \
    -d 'Reads a text of another format, as yaml, toml, ini, env, properties or json5'
complete -c confstorectl -n '__confstorectl_is import' -l document -x \
    -d 'Of a YAML text with several documents takes number N, from 1'
complete -c confstorectl -n '__confstorectl_is import' -l split \
    -d 'Imports each document of a YAML text; {n} in NAME stands for its number'
complete -c confstorectl -n '__confstorectl_is import' -l dir -r -F \
    -d 'Imports each file of the folder DIR; {file} in NAME stands for its name'
complete -c confstorectl -n '__confstorectl_is set' -l yaml \
    -d 'Reads VALUE, or standard input if that is `-`, as a YAML text'
complete -c confstorectl -n '__confstorectl_is set' -l file -r -F \
    -d 'Takes the bytes of FILE, or of standard input for `-`, as the text, in place of VALUE'
complete -c confstorectl -n '__confstorectl_is set' -l whole \
    -d 'Allows the pointer "", which stands for the whole configuration'
complete -c confstorectl -n '__confstorectl_is set' -l explain \
    -d 'Shows the line at fault of a refused text, and says what to do'
complete -c confstorectl -n '__confstorectl_is set' -l parents \
    -d 'Makes the mappings that are missing on the way'
complete -c confstorectl -n '__confstorectl_is set' -l insert \
    -d 'Inserts the value before the element at an index of a list'
complete -c confstorectl -n '__confstorectl_is set' -l if-value -x \
    -d 'Changes the store only if this text is at the place that is changed'
complete -c confstorectl -n '__confstorectl_is set' -l if-absent \
    -d 'Changes the store only if nothing is at the place that is changed'
complete -c confstorectl -n '__confstorectl_is set' -l if-count -x \
    -d 'Changes the store only if it has accepted N commands'
complete -c confstorectl -n '__confstorectl_is set' -l check -x \
    -d 'Makes the change only if COMMAND, of a shell, takes the text that comes of it'
complete -c confstorectl -n '__confstorectl_is set' -l dry-run \
    -d 'Writes what would change, as `diff -u` does, and changes nothing'
complete -c confstorectl -n '__confstorectl_is set' -l about -x \
    -d 'Notes a text of the change under a key, as why=TEXT; may be given again'
complete -c confstorectl -n '__confstorectl_is set' -l no-by -d 'Does not note the login name as `by`'
complete -c confstorectl -n '__confstorectl_is set' -l no-when -d 'Does not note the time as `when`'
complete -c confstorectl -n '__confstorectl_is delete' -l whole \
    -d 'Allows the pointer "", which stands for the whole configuration'
complete -c confstorectl -n '__confstorectl_is delete' -l if-value -x \
    -d 'Changes the store only if this text is at the place that is changed'
complete -c confstorectl -n '__confstorectl_is delete' -l if-absent \
    -d 'Changes the store only if nothing is at the place that is changed'
complete -c confstorectl -n '__confstorectl_is delete' -l if-count -x \
    -d 'Changes the store only if it has accepted N commands'
complete -c confstorectl -n '__confstorectl_is delete' -l check -x \
    -d 'Makes the change only if COMMAND, of a shell, takes the text that comes of it'
complete -c confstorectl -n '__confstorectl_is delete' -l dry-run \
    -d 'Writes what would change, as `diff -u` does, and changes nothing'
complete -c confstorectl -n '__confstorectl_is delete' -l about -x \
    -d 'Notes a text of the change under a key, as why=TEXT; may be given again'
complete -c confstorectl -n '__confstorectl_is delete' -l no-by -d 'Does not note the login name as `by`'
complete -c confstorectl -n '__confstorectl_is delete' -l no-when -d 'Does not note the time as `when`'
complete -c confstorectl -n '__confstorectl_is copy' -l replace \
    -d 'Replaces a configuration that has the name TO'
complete -c confstorectl -n '__confstorectl_is copy' -l if-value -x \
    -d 'Changes the store only if this text is at the place that is changed'
complete -c confstorectl -n '__confstorectl_is copy' -l if-absent \
    -d 'Changes the store only if nothing is at the place that is changed'
complete -c confstorectl -n '__confstorectl_is copy' -l if-count -x \
    -d 'Changes the store only if it has accepted N commands'
complete -c confstorectl -n '__confstorectl_is copy' -l check -x \
    -d 'Makes the change only if COMMAND, of a shell, takes the text that comes of it'
complete -c confstorectl -n '__confstorectl_is copy' -l dry-run \
    -d 'Writes what would change, as `diff -u` does, and changes nothing'
complete -c confstorectl -n '__confstorectl_is copy' -l about -x \
    -d 'Notes a text of the change under a key, as why=TEXT; may be given again'
complete -c confstorectl -n '__confstorectl_is copy' -l no-by -d 'Does not note the login name as `by`'
complete -c confstorectl -n '__confstorectl_is copy' -l no-when -d 'Does not note the time as `when`'
complete -c confstorectl -n '__confstorectl_is rename' -l if-value -x \
    -d 'Changes the store only if this text is at the place that is changed'
complete -c confstorectl -n '__confstorectl_is rename' -l if-absent \
    -d 'Changes the store only if nothing is at the place that is changed'
complete -c confstorectl -n '__confstorectl_is rename' -l if-count -x \
    -d 'Changes the store only if it has accepted N commands'
complete -c confstorectl -n '__confstorectl_is rename' -l check -x \
    -d 'Makes the change only if COMMAND, of a shell, takes the text that comes of it'
complete -c confstorectl -n '__confstorectl_is rename' -l dry-run \
    -d 'Writes what would change, as `diff -u` does, and changes nothing'
complete -c confstorectl -n '__confstorectl_is rename' -l about -x \
    -d 'Notes a text of the change under a key, as why=TEXT; may be given again'
complete -c confstorectl -n '__confstorectl_is rename' -l no-by -d 'Does not note the login name as `by`'
complete -c confstorectl -n '__confstorectl_is rename' -l no-when -d 'Does not note the time as `when`'
complete -c confstorectl -n '__confstorectl_is move' -l if-value -x \
    -d 'Changes the store only if this text is at the place that is changed'
complete -c confstorectl -n '__confstorectl_is move' -l if-absent \
    -d 'Changes the store only if nothing is at the place that is changed'
complete -c confstorectl -n '__confstorectl_is move' -l if-count -x \
    -d 'Changes the store only if it has accepted N commands'
complete -c confstorectl -n '__confstorectl_is move' -l check -x \
    -d 'Makes the change only if COMMAND, of a shell, takes the text that comes of it'
complete -c confstorectl -n '__confstorectl_is move' -l dry-run \
    -d 'Writes what would change, as `diff -u` does, and changes nothing'
complete -c confstorectl -n '__confstorectl_is move' -l about -x \
    -d 'Notes a text of the change under a key, as why=TEXT; may be given again'
complete -c confstorectl -n '__confstorectl_is move' -l no-by -d 'Does not note the login name as `by`'
complete -c confstorectl -n '__confstorectl_is move' -l no-when -d 'Does not note the time as `when`'
complete -c confstorectl -n '__confstorectl_is edit' -l check -x \
    -d 'Makes the change only if COMMAND, of a shell, takes the text that comes of it'
complete -c confstorectl -n '__confstorectl_is edit' -l about -x \
    -d 'Notes a text of the change under a key, as why=TEXT; may be given again'
complete -c confstorectl -n '__confstorectl_is edit' -l no-by -d 'Does not note the login name as `by`'
complete -c confstorectl -n '__confstorectl_is edit' -l no-when -d 'Does not note the time as `when`'
complete -c confstorectl -n '__confstorectl_is batch' -l explain \
    -d 'Shows the line at fault of a refused text, and says what to do'
complete -c confstorectl -n '__confstorectl_is batch' -l if-count -x \
    -d 'Changes the store only if it has accepted N commands'
complete -c confstorectl -n '__confstorectl_is batch' -l check -x \
    -d 'Makes the change only if COMMAND, of a shell, takes the text that comes of it'
complete -c confstorectl -n '__confstorectl_is batch' -l dry-run \
    -d 'Writes what would change, as `diff -u` does, and changes nothing'
complete -c confstorectl -n '__confstorectl_is batch' -l about -x \
    -d 'Notes a text of the change under a key, as why=TEXT; may be given again'
complete -c confstorectl -n '__confstorectl_is batch' -l no-by -d 'Does not note the login name as `by`'
complete -c confstorectl -n '__confstorectl_is batch' -l no-when -d 'Does not note the time as `when`'
complete -c confstorectl -n '__confstorectl_is undo' -l archive -r -F \
    -d 'Looks into the store DIR, too, which `checkpoint --archive` made; may be given again'
complete -c confstorectl -n '__confstorectl_is undo' -l if-count -x \
    -d 'Changes the store only if it has accepted N commands'
complete -c confstorectl -n '__confstorectl_is undo' -l check -x \
    -d 'Makes the change only if COMMAND, of a shell, takes the text that comes of it'
complete -c confstorectl -n '__confstorectl_is undo' -l dry-run \
    -d 'Writes what would change, as `diff -u` does, and changes nothing'
complete -c confstorectl -n '__confstorectl_is undo' -l about -x \
    -d 'Notes a text of the change under a key, as why=TEXT; may be given again'
complete -c confstorectl -n '__confstorectl_is undo' -l no-by -d 'Does not note the login name as `by`'
complete -c confstorectl -n '__confstorectl_is undo' -l no-when -d 'Does not note the time as `when`'
complete -c confstorectl -n '__confstorectl_is rollback' -l to -x -d 'Goes as far as command number N'
complete -c confstorectl -n '__confstorectl_is rollback' -l archive -r -F \
    -d 'Looks into the store DIR, too, which `checkpoint --archive` made; may be given again'
complete -c confstorectl -n '__confstorectl_is rollback' -l if-count -x \
    -d 'Changes the store only if it has accepted N commands'
complete -c confstorectl -n '__confstorectl_is rollback' -l check -x \
    -d 'Makes the change only if COMMAND, of a shell, takes the text that comes of it'
complete -c confstorectl -n '__confstorectl_is rollback' -l dry-run \
    -d 'Writes what would change, as `diff -u` does, and changes nothing'
complete -c confstorectl -n '__confstorectl_is rollback' -l about -x \
    -d 'Notes a text of the change under a key, as why=TEXT; may be given again'
complete -c confstorectl -n '__confstorectl_is rollback' -l no-by -d 'Does not note the login name as `by`'
complete -c confstorectl -n '__confstorectl_is rollback' -l no-when -d 'Does not note the time as `when`'
complete -c confstorectl -n '__confstorectl_is sync' -l delete \
    -d 'Removes each configuration that has no file'
complete -c confstorectl -n '__confstorectl_is sync' -l explain \
    -d 'Shows the line at fault of a refused text, and says what to do'
complete -c confstorectl -n '__confstorectl_is sync' -l if-count -x \
    -d 'Changes the store only if it has accepted N commands'
complete -c confstorectl -n '__confstorectl_is sync' -l check -x \
    -d 'Makes the change only if COMMAND, of a shell, takes the text that comes of it'
complete -c confstorectl -n '__confstorectl_is sync' -l dry-run \
    -d 'Writes what would change, as `diff -u` does, and changes nothing'
complete -c confstorectl -n '__confstorectl_is sync' -l about -x \
    -d 'Notes a text of the change under a key, as why=TEXT; may be given again'
complete -c confstorectl -n '__confstorectl_is sync' -l no-by -d 'Does not note the login name as `by`'
complete -c confstorectl -n '__confstorectl_is sync' -l no-when -d 'Does not note the time as `when`'
complete -c confstorectl -n '__confstorectl_is checkpoint' -l archive -r -F \
    -d 'Makes the new store NEW before, which has all that the checkpoint drops'
complete -c confstorectl -n '__confstorectl_is export' -l json \
    -d 'Writes a JSON text on one line; each text is a string'
complete -c confstorectl -n '__confstorectl_is export' -l plain \
    -d 'Writes texts as 80, true and null without quotes, for readers with types'
complete -c confstorectl -n '__confstorectl_is export' -l all -r -F \
    -d 'Writes each configuration into the file NAME.yaml of the folder DIR, in place of NAME'
complete -c confstorectl -n '__confstorectl_is names' -l json -d 'Writes a JSON array on one line'
complete -c confstorectl -n '__confstorectl_is names' -l at -x \
    -d 'Reads the store as it was after command number N'
complete -c confstorectl -n '__confstorectl_is names' -l archive -r -F \
    -d 'Looks into the store DIR, too, which `checkpoint --archive` made; may be given again'
complete -c confstorectl -n '__confstorectl_is keys' -l at -x \
    -d 'Reads the store as it was after command number N'
complete -c confstorectl -n '__confstorectl_is keys' -l archive -r -F \
    -d 'Looks into the store DIR, too, which `checkpoint --archive` made; may be given again'
complete -c confstorectl -n '__confstorectl_is get' -l raw \
    -d 'Writes a text as it is, with a line feed after it'
complete -c confstorectl -n '__confstorectl_is get' -l no-newline \
    -d 'Writes no line feed after the text; needs `--raw`'
complete -c confstorectl -n '__confstorectl_is get' -l json \
    -d 'Writes a JSON text on one line; each text is a string'
complete -c confstorectl -n '__confstorectl_is get' -l plain \
    -d 'Writes texts as 80, true and null without quotes, for readers with types'
complete -c confstorectl -n '__confstorectl_is get' -l env \
    -d 'Writes lines that set variables of sh and of systemd'
complete -c confstorectl -n '__confstorectl_is get' -l default -x \
    -d 'Writes TEXT where nothing is at the place; `--default=TEXT` if it begins with `-`'
complete -c confstorectl -n '__confstorectl_is get' -l at -x \
    -d 'Reads the store as it was after command number N'
complete -c confstorectl -n '__confstorectl_is get' -l archive -r -F \
    -d 'Looks into the store DIR, too, which `checkpoint --archive` made; may be given again'
complete -c confstorectl -n '__confstorectl_is exists' -l at -x \
    -d 'Reads the store as it was after command number N'
complete -c confstorectl -n '__confstorectl_is exists' -l archive -r -F \
    -d 'Looks into the store DIR, too, which `checkpoint --archive` made; may be given again'
complete -c confstorectl -n '__confstorectl_is log' -l values \
    -d 'Writes the value of each import and set, too, as a JSON text'
complete -c confstorectl -n '__confstorectl_is log' -l hide -x \
    -d 'Writes `hidden` for what is at POINTER, or below it; needs --values or --json; may be given again' -a '(__confstorectl_pointers | string split0)'
complete -c confstorectl -n '__confstorectl_is log' -l yaml \
    -d 'Writes the records as they stand in store.yaml'
complete -c confstorectl -n '__confstorectl_is log' -l json \
    -d 'Writes each command as a JSON object on one line, with its values'
complete -c confstorectl -n '__confstorectl_is log' -l about -x \
    -d 'Shows what is noted under KEY, in place of `by`, `when` and `why`; may be given again'
complete -c confstorectl -n '__confstorectl_is log' -l from -x -d 'Begins with command number N'
complete -c confstorectl -n '__confstorectl_is log' -l to -x -d 'Goes as far as command number N'
complete -c confstorectl -n '__confstorectl_is log' -l at -x \
    -d 'Reads the store as it was after command number N'
complete -c confstorectl -n '__confstorectl_is log' -l archive -r -F \
    -d 'Looks into the store DIR, too, which `checkpoint --archive` made; may be given again'
complete -c confstorectl -n '__confstorectl_is diff' -l from -x \
    -d 'Begins with what the store was after command number N'
complete -c confstorectl -n '__confstorectl_is diff' -l to -x -d 'Goes as far as command number N'
complete -c confstorectl -n '__confstorectl_is diff' -l lines \
    -d 'Writes a line for what was at each place, and one for what is there then'
complete -c confstorectl -n '__confstorectl_is diff' -l hide -x \
    -d 'Leaves out what is at POINTER, or below it; may be given again' -a '(__confstorectl_pointers | string split0)'
complete -c confstorectl -n '__confstorectl_is diff' -l files \
    -d 'Compares two files, which stand in the places of FOLDER and NAME'
complete -c confstorectl -n '__confstorectl_is diff' -l explain \
    -d 'Shows the line at fault of a refused text, and says what to do'
complete -c confstorectl -n '__confstorectl_is diff' -l archive -r -F \
    -d 'Looks into the store DIR, too, which `checkpoint --archive` made; may be given again'
complete -c confstorectl -n '__confstorectl_is page' -l hide -x \
    -d 'Leaves out what is at POINTER, or below it; may be given again' -a '(__confstorectl_pointers | string split0)'
complete -c confstorectl -n '__confstorectl_is page' -l archive -r -F \
    -d 'Looks into the store DIR, too, which `checkpoint --archive` made; may be given again'
complete -c confstorectl -n '__confstorectl_is verify' -l keep-dropped -r -F \
    -d 'Writes what an opening drops, or is refused for, to the new file FILE'
complete -c confstorectl -n '__confstorectl_is watch' -l values \
    -d 'Writes the value of each import and set, too, as a JSON text'
complete -c confstorectl -n '__confstorectl_is watch' -l yaml \
    -d 'Writes the records as they stand in store.yaml'
complete -c confstorectl -n '__confstorectl_is watch' -l from -x \
    -d 'Begins with change number N, which may have been made already'
complete -c confstorectl -n '__confstorectl_is watch' -l settle -x \
    -d 'Runs COMMAND once for the changes that come within so many seconds'
complete -c confstorectl -n '__confstorectl_is run' -l group \
    -d 'Syncs once for all commands that one read brings, and then answers them'
complete -c confstorectl -n '__confstorectl_is run' -l checkpoint-after -x \
    -d 'Makes a checkpoint each time the file has grown by so many bytes; needs `--group`'
complete -c confstorectl -n '__confstorectl_is salvage' -l keep-dropped -r -F \
    -d 'Writes what an opening drops, or is refused for, to the new file FILE'
complete -c confstorectl -n '__confstorectl_is format' -l in-place \
    -d 'Replaces each FILE that would change by its text in the one style; also `-i`'
complete -c confstorectl -n '__confstorectl_is format' -l drop-comments \
    -d 'Replaces a FILE with comments too, which are lost'
complete -c confstorectl -n '__confstorectl_is format' -l keep-comments \
    -d 'Keeps the comments of each text; of `check`, wants them so'
complete -c confstorectl -n '__confstorectl_is format' -l check \
    -d 'Changes nothing, and names each FILE that would change'
complete -c confstorectl -n '__confstorectl_is format' -l explain \
    -d 'Shows the line at fault of a refused text, and says what to do'
complete -c confstorectl -n '__confstorectl_is check' -l keep-comments \
    -d 'Keeps the comments of each text; of `check`, wants them so'
complete -c confstorectl -n '__confstorectl_is check' -l explain \
    -d 'Shows the line at fault of a refused text, and says what to do'
complete -c confstorectl -n '__confstorectl_at 0 import set delete copy rename move edit batch undo rollback sync checkpoint export names keys get exists render log diff page verify watch init run backup salvage' \
    -a '(__fish_complete_directories)'
complete -c confstorectl -n '__confstorectl_at 1 backup salvage' -a '(__fish_complete_directories)'
complete -c confstorectl -n '__confstorectl_at 1 sync' -a '(__fish_complete_directories)'
complete -c confstorectl -n '__confstorectl_at 2 import render' -F
complete -c confstorectl -n '__confstorectl_at 1 batch' -F
complete -c confstorectl -n '__confstorectl_is format' -F
complete -c confstorectl -n '__confstorectl_is check' -F
complete -c confstorectl -n '__confstorectl_at 1 render' -F
complete -c confstorectl -n '__confstorectl_at 1 import set delete copy rename move edit rollback export keys get exists log diff watch' \
    -a '(__confstorectl_names)'
complete -c confstorectl -n '__confstorectl_at 2 undo' -a '(__confstorectl_names)'
complete -c confstorectl -n '__confstorectl_at 2 copy rename' -a '(__confstorectl_names)'
complete -c confstorectl -n '__confstorectl_at 2 set' -a '(__confstorectl_pointers new | string split0)'
complete -c confstorectl -n '__confstorectl_at 2 delete' -a '(__confstorectl_pointers | string split0)'
complete -c confstorectl -n '__confstorectl_at 2 move' -a '(__confstorectl_pointers | string split0)'
complete -c confstorectl -n '__confstorectl_at 3 move' -a '(__confstorectl_pointers new | string split0)'
complete -c confstorectl -n '__confstorectl_at 2 keys' -a '(__confstorectl_pointers | string split0)'
complete -c confstorectl -n '__confstorectl_from 2 get' -a '(__confstorectl_pointers | string split0)'
complete -c confstorectl -n '__confstorectl_at 2 exists' -a '(__confstorectl_pointers | string split0)'
complete -c confstorectl -n '__confstorectl_at 2 watch' -a '(__confstorectl_pointers | string split0)'
complete -c confstorectl -n '__confstorectl_at 0 help' \
    -a 'import set delete copy rename move edit batch undo rollback sync checkpoint export names keys get exists render log diff page verify watch init run backup salvage format check'
