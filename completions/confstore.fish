# Completion of confstore for fish: put it into a folder of `fish_complete_path`.

set -l stores run export import set delete copy rename move batch checkpoint init names get keys exists log diff verify salvage backup
set -l named export import set delete copy rename move get keys exists log diff
set -l conditional import set delete copy rename move
set -l locking init import set delete copy rename move batch checkpoint run export

# The words after the subcommand that are no options and no option's value.
function __confstore_places
    set -l places
    set -l is_value 0
    for word in (commandline -opc)[3..-1]
        if test $is_value = 1
            set is_value 0
        else if contains -- $word --about --all --checkpoint-after --at --from --to --default --file --hide --if-value --if-count --keep-dropped --wait
            set is_value 1
        else if not string match -q -- '-?*' $word
            set -a places $word
        end
    end
    for place in $places
        echo $place
    end
end

# Whether so many of them come before the word that is being written, after one of these subcommands.
function __confstore_at
    set -l words (commandline -opc)
    test (count (__confstore_places)) -eq $argv[1]
    and contains -- "$words[2]" $argv[2..-1]
end

# The names of the configurations in the folder that was written.
function __confstore_names
    set -l places (__confstore_places)
    confstore names -- $places[1] 2>/dev/null
end

# Whether at least so many of them come before the word that is being written, after this subcommand.
function __confstore_from
    set -l words (commandline -opc)
    test (count (__confstore_places)) -ge $argv[1]
    and test "$words[2]" = $argv[2]
end

# Whether two files are compared: then they stand in the places of a folder and a name.
function __confstore_of_files
    contains -- --files (commandline -opc)
end

# The folder and the name that were written.
function __confstore_store
    set -l places (__confstore_places)
    string join -- \n $places[1..2]
end

# ---- pointers

# The pointer that is being written, without its quotes.
function __confstore_typed
    set -l word (commandline -ct | string collect)
    for closed in "$word" "$word'" "$word\""
        if set -l plain (string unescape -- "$closed" | string collect)
            string replace -r -- '^--hide=' '' "$plain"
            return
        end
    end
end

# The keys of these lines of `keys`, a NUL behind each: one that a line can't show as it is stands in quotes there. A key
# with a TAB is left out, since fish takes what is behind that for a description.
function __confstore_plain
    for key in $argv
        if string match -q -- '"*' $key
            set key (string sub -s 2 -e -1 -- $key | string replace -a '\\\\' '\u005C')
            string match -q -r -- '\\\\[0t]' "$key"
            and continue
            set key (string replace -a '\x' '\u00' -- "$key" | string replace -a '\"' '"')
            printf '%b\0' "$key"
        else
            printf '%s\0' $key
        end
    end
end

# What may follow the pointer that is being written, a NUL behind each: at most 1,000 pointers.
function __confstore_pointers
    set -l store (__confstore_store)
    set -l typed "$(__confstore_typed)"
    test (count $store) -eq 2
    and string match -q -r -- '^(/|$)' "$typed"
    or return
    string match -q -r -- '^~(/|$)' $store[1]
    and set store[1] $HOME(string sub -s 2 -- $store[1])
    set -l step "$(string replace -r -- '(?s)^.*/' '' "$typed")"
    set -l parent "$(string replace -r -- '[^/]*$' '' "$typed")"
    set -l keys (confstore keys -- $store "$(string replace -r -- '/$' '' "$parent")" 2>/dev/null)
    # A list has the indexes from 0 on, and takes a new element at `-`.
    test "$argv" = new -a "$keys[1]" = 0 -a "$keys[-1]" = (math (count $keys) - 1)
    and set -a keys -
    test -n "$parent"
    or set parent /
    set -l begin (string escape --style=regex -- "$step")
    set keys (string replace -a '~' '~0' -- $keys | string replace -a / '~1' | string match -r -- "^(?:\"|$begin).*")
    set -l found
    for key in (__confstore_plain $keys[1..1000] | string split0)
        string match -q -r -- "^$begin" "$key"
        and set -a found "$parent$key"
    end
    if test (count $found) -eq 1; and confstore keys -- $store $found >/dev/null 2>&1
        set found $found/
    end
    string join0 -- $found
end

# ---- words

complete -c confstore -f
complete -c confstore -l help -d 'Say what the word does'
complete -c confstore -n __fish_use_subcommand -l version -d 'Write the version'
complete -c confstore -n __fish_use_subcommand -a run -d 'Perform the commands on standard input'
complete -c confstore -n __fish_use_subcommand -a export -d 'Write a configuration, or each into a file'
complete -c confstore -n __fish_use_subcommand -a names -d 'Write the names of the configurations'
complete -c confstore -n __fish_use_subcommand -a get -d 'Write the value at a pointer'
complete -c confstore -n __fish_use_subcommand -a keys -d 'Write the keys of what is at a pointer'
complete -c confstore -n __fish_use_subcommand -a exists -d 'Tell by the status whether something is there'
complete -c confstore -n __fish_use_subcommand -a log -d 'Write the commands since the last checkpoint'
complete -c confstore -n __fish_use_subcommand -a diff -d 'Write what changed between two commands, or two files'
complete -c confstore -n __fish_use_subcommand -a verify -d 'Write whether a store can be opened'
complete -c confstore -n __fish_use_subcommand -a salvage -d 'Make a store of what comes before the damage'
complete -c confstore -n __fish_use_subcommand -a backup -d 'Make a store with the same records'
complete -c confstore -n __fish_use_subcommand -a import -d 'Put the tree of a text under a name'
complete -c confstore -n __fish_use_subcommand -a set -d 'Set the value at a pointer'
complete -c confstore -n __fish_use_subcommand -a delete -d 'Take out a value, or a configuration'
complete -c confstore -n __fish_use_subcommand -a copy -d 'Put a copy of a configuration under another name'
complete -c confstore -n __fish_use_subcommand -a rename -d 'Give a configuration another name'
complete -c confstore -n __fish_use_subcommand -a move -d 'Move a value to another pointer'
complete -c confstore -n __fish_use_subcommand -a batch -d 'Make all edits that a text lists, or none'
complete -c confstore -n __fish_use_subcommand -a checkpoint -d 'Make the store file as short as its state'
complete -c confstore -n __fish_use_subcommand -a init -d 'Make an empty store'
complete -c confstore -n __fish_use_subcommand -a format -d 'Write a text in the one style'
complete -c confstore -n __fish_use_subcommand -a check -d 'Write where a text departs from the one style'
complete -c confstore -n __fish_use_subcommand -a help -d 'Say what a word does'

complete -c confstore -n "__confstore_at 0 $stores" -a '(__fish_complete_directories)'
complete -c confstore -n "__confstore_at 1 $named" -a '(__confstore_names)'
complete -c confstore -n '__confstore_at 1 salvage backup' -a '(__fish_complete_directories)'
complete -c confstore -n '__confstore_at 2 copy rename' -a '(__confstore_names)'
complete -c confstore -n '__fish_seen_subcommand_from copy' -l replace -d 'Replace a configuration of that name'
complete -c confstore -n '__confstore_at 2 set' -a '(__confstore_pointers new | string split0)'
complete -c confstore -n '__confstore_at 2 delete move keys exists' -a '(__confstore_pointers | string split0)'
complete -c confstore -n '__confstore_at 3 move' -a '(__confstore_pointers new | string split0)'
complete -c confstore -n '__confstore_from 2 get' -a '(__confstore_pointers | string split0)'
complete -c confstore -n '__confstore_at 2 import' -F
complete -c confstore -n '__confstore_at 1 batch' -F
complete -c confstore -n '__fish_seen_subcommand_from run' -l group -d 'Sync once for all commands at hand'
complete -c confstore -n '__fish_seen_subcommand_from run' -l checkpoint-after -x -d 'Make checkpoints meanwhile'
complete -c confstore -n '__fish_seen_subcommand_from import' -l init -d 'Make a store where there is none'
complete -c confstore -n '__fish_seen_subcommand_from import' -l any-root -d 'Take one value alone, too'
complete -c confstore -n '__fish_seen_subcommand_from set' -l yaml -d 'Read the value as a text'
complete -c confstore -n '__fish_seen_subcommand_from set' -l file -r -F -d 'Take the text of a file'
complete -c confstore -n '__fish_seen_subcommand_from set' -l parents -d 'Make mappings that are missing'
complete -c confstore -n '__fish_seen_subcommand_from set' -l insert -d 'Insert before an element'
complete -c confstore -n "__fish_seen_subcommand_from $conditional" -l if-value -x -d 'Change only if this text is there'
complete -c confstore -n "__fish_seen_subcommand_from $conditional" -l if-absent -d 'Change only if nothing is there'
complete -c confstore -n "__fish_seen_subcommand_from batch $conditional" -l if-count -x -d 'Change only after so many commands'
complete -c confstore -n "__fish_seen_subcommand_from batch $conditional" -l about -x -d 'Record a text under a key with the change'
complete -c confstore -n "__fish_seen_subcommand_from $locking" -l wait -x -d 'Try again for so many seconds'
complete -c confstore -n '__fish_seen_subcommand_from set delete' -l whole -d 'Allow the empty pointer'
complete -c confstore -n '__fish_seen_subcommand_from import set batch format check' -l explain -d 'Show the line at fault of a refused text'
complete -c confstore -n '__fish_seen_subcommand_from names get keys exists log' -l at -x -d 'Read the store as it was after a command'
complete -c confstore -n '__fish_seen_subcommand_from get' -l raw -d 'Write a text as it is'
complete -c confstore -n '__fish_seen_subcommand_from get' -l no-newline -d 'Write no line feed after it'
complete -c confstore -n '__fish_seen_subcommand_from get export names log' -l json -d 'Write a JSON text'
complete -c confstore -n '__fish_seen_subcommand_from get export' -l plain -d 'Write numbers without quotes'
complete -c confstore -n '__fish_seen_subcommand_from export' -l all -x -a '(__fish_complete_directories)' -d 'Write each configuration into a file'
complete -c confstore -n '__fish_seen_subcommand_from get' -l default -x -d 'Write a text where nothing is there'
complete -c confstore -n '__fish_seen_subcommand_from log' -l values -d 'Write values as JSON texts'
complete -c confstore -n '__fish_seen_subcommand_from log' -l about -x -d 'Show what is recorded under a key' -a 'by when why'
complete -c confstore -n '__fish_seen_subcommand_from log' -l hide -x -d 'Hide the values at a place' -a '(__confstore_pointers | string split0)'
complete -c confstore -n '__fish_seen_subcommand_from log' -l yaml -d 'Write the records as they stand'
complete -c confstore -n '__fish_seen_subcommand_from log' -l from -x -d 'Begin with a command'
complete -c confstore -n '__fish_seen_subcommand_from log' -l to -x -d 'End with a command'
complete -c confstore -n '__fish_seen_subcommand_from diff' -l from -x -d 'Begin after a command'
complete -c confstore -n '__fish_seen_subcommand_from diff' -l to -x -d 'Go to a command'
complete -c confstore -n '__fish_seen_subcommand_from diff' -l files -d 'Compare two files'
complete -c confstore -n '__confstore_at 0 diff; and __confstore_of_files' -F
complete -c confstore -n '__confstore_at 1 diff; and __confstore_of_files' -F
complete -c confstore -n '__fish_seen_subcommand_from verify salvage' -l keep-dropped -r -F -d 'Keep what an opening drops'
complete -c confstore -n '__fish_seen_subcommand_from format check' -F
complete -c confstore -n '__fish_seen_subcommand_from format' -s i -l in-place -d 'Replace each file that would change'
complete -c confstore -n '__fish_seen_subcommand_from format check' -l keep-comments -d 'Keep the comments of each text'
complete -c confstore -n '__fish_seen_subcommand_from format' -l drop-comments -d 'Replace files with comments too'
complete -c confstore -n '__fish_seen_subcommand_from format' -l check -d 'Name each file that would change'
