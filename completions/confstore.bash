# Completion of confstore for bash: `source` it, or put it as `confstore` where bash-completion looks for such files.

_confstore_words='init import set delete copy rename move batch checkpoint run export names get keys exists log diff verify salvage backup format check help'

_confstore_options() {
    local conditions='--if-value --if-absent --if-count --about'
    case $1 in
    init | checkpoint) echo '--wait --help' ;;
    run) echo '--group --checkpoint-after --wait --help' ;;
    import) echo "--init --any-root --explain $conditions --wait --help" ;;
    set) echo "--yaml --file --parents --insert --whole --explain $conditions --wait --help" ;;
    delete) echo "--whole $conditions --wait --help" ;;
    copy) echo "--replace $conditions --wait --help" ;;
    rename | move) echo "$conditions --wait --help" ;;
    batch) echo '--explain --if-count --about --wait --help' ;;
    export) echo '--all --json --plain --wait --help' ;;
    names) echo '--json --at --help' ;;
    get) echo '--raw --no-newline --json --plain --default --at --help' ;;
    keys | exists) echo '--at --help' ;;
    log) echo '--values --hide --yaml --json --about --from --to --at --help' ;;
    diff) echo '--from --to --files --help' ;;
    verify | salvage) echo '--keep-dropped --help' ;;
    format) echo '-i --in-place --keep-comments --drop-comments --check --explain --help' ;;
    check) echo '--keep-comments --explain --help' ;;
    *) echo '--help' ;;
    esac
}

# The names of the configurations in a folder as it was typed, perhaps in quotes or with a `~`.
_confstore_names() {
    local folder=${1//[\\\"\']/}
    [[ $folder != '~'* ]] || folder=$HOME${folder#'~'}
    confstore names -- "$folder" 2>/dev/null
}

# The options with a value of the words that take pointers, and the words and places that are pointers: the word, the
# folder and the name come before them.
_confstore_valued='--wait --about --if-value --if-count --file --default --at --hide --from --to'
_confstore_is_pointer() {
    case $1:$2 in
    set:3 | delete:3 | keys:3 | exists:3 | move:3 | move:4) ;;
    get:*) [ "$2" -ge 3 ] ;;
    *) return 1 ;;
    esac
}

# ---- pointers

# Takes the words up to the cursor as the shell does, but expands nothing. `typed` gets them without their quotes, and
# `quote` the quote in which the last one ends. `is_known` is empty if the shell would expand that.
_confstore_take_words() {
    local line=${COMP_LINE:0:COMP_POINT} last=0 index char next part=''
    typed=('') quote='' is_known=yes
    for ((index = 0; index < ${#line}; index++)); do
        char=${line:index:1} next=${line:index+1:1}
        if [ "$quote" = "'" ]; then
            if [ "$char" = "'" ]; then quote=''; else typed[last]+=$char; fi
        elif [ "$quote" = '$' ]; then
            if [ "$char" = "'" ]; then
                printf -v part %b "${part//"\\'"/"'"}"
                typed[last]+=$part quote=''
            elif [ "$char" = '\' ]; then
                part+=$char$next index=$((index + 1))
            else
                part+=$char
            fi
        elif [ "$quote$char" = '""' ]; then
            quote=''
        elif [ "$char" = '\' ] && { [ -z "$quote" ] || [[ $next == [\$\`\"\\] ]]; }; then
            [ -n "$next" ] || is_known=''
            typed[last]+=$next index=$((index + 1))
        elif [ "$char" = '`' ] || { [ "$char" = '$' ] && [ "$quote$next" != "'" ]; }; then
            typed[last]+=$char is_known=''
        elif [ -n "$quote" ]; then
            typed[last]+=$char
        elif [ "$char" = '$' ]; then
            quote='$' part='' index=$((index + 1))
        elif [[ $char == [\"\'] ]]; then
            quote=$char
        elif [[ $char == [[:space:]] ]]; then
            [[ $next == [[:space:]] ]] || last=$((last + 1)) typed[last]='' is_known=yes
        else
            [[ $char != [][*?{}\(\)\<\>\|\&\;!] ]] || is_known=''
            typed[last]+=$char
        fi
    done
    [ "$quote" != '$' ] || is_known=''
}

# Gives `quoted` a piece of a word in a form that the shell takes as it is, behind what ends in a quote.
_confstore_quote() {
    local piece=$1 in=$2 index char
    quoted=''
    for ((index = 0; index < ${#piece}; index++)); do
        char=${piece:index:1}
        case ${in:-0}$char in
        ?[[:cntrl:]])
            printf -v char '\\u%04x' "'$char"
            char="$in\$'$char'$in"
            ;;
        "''") char="'\\''" ;;
        \'*) ;;
        '"!') char='"\!"' ;;
        '"'[\$\`\"\\]) char="\\$char" ;;
        '"'*) ;;
        0[[:alnum:]/~_.,:=+@%-]) ;;
        *) char="\\$char" ;;
        esac
        quoted+=$char
    done
}

# Gives `rests` what may follow a pointer that was typed: at most 1,000 pieces.
_confstore_take_rests() {
    local folder=$1 name=$2 parent=$3 step=$4 is_new=$5 key begin=${4%'~'}
    local -a keys
    rests=() begin=${begin//'~1'//}
    begin=${begin//'~0'/'~'}
    [ "$is_new$step" != yes- ] || begin=''
    mapfile -t keys < <(
        confstore keys -- "$folder" "$name" "$parent" 2>/dev/null | begin=$begin awk '
            /^"/ || substr($0, 1, length(ENVIRON["begin"])) == ENVIRON["begin"] && count++ < 1000' 2>/dev/null
    )
    for key in "${keys[@]}"; do
        if [[ $key == \"* ]]; then
            key=${key:1:${#key}-2}
            key=${key//'\\'/'\u005C'}
            [[ $key != *'\0'* ]] || continue
            key=${key//'\x'/'\u00'}
            printf -v key %b "${key//'\"'/'"'}"
        fi
        [[ $key == "$begin"* ]] || continue
        key=${key//'~'/'~0'}
        key=${key//'/'/'~1'}
        [[ $key != "$step"* ]] || rests+=("${key:${#step}}")
        [ "${#rests[@]}" -lt 1000 ] || break
    done
    # A list has the indexes from 0 on, and takes a new element at `-`.
    if [ -n "$is_new" ] && [[ -z ${step#-} && ${keys[*]:0:1} == 0 && ${keys[-1]} == $((${#keys[@]} - 1)) ]]; then
        if [ -n "$step" ]; then rests=(''); else rests+=(-); fi
    fi
}

# Replies with what may follow, behind the text that readline replaces.
_confstore_reply() {
    local text=$1 quote=$2 common=${rests[0]} rest quoted is_plain=yes
    for rest in "${rests[@]}"; do
        while [[ $rest != "$common"* ]]; do common=${common%?}; done
        [[ $rest != *[^[:alnum:]/~_.,:=+@%-]* ]] || is_plain=''
    done
    # What a quote shortens is no part of a key: readline gets only what all have, or forms that have nothing in common.
    if [ -z "$is_plain" ] && [ -n "$common" ] && [ "${#rests[@]}" -gt 1 ]; then
        compopt -o nospace
        rests=("$common")
    fi
    for rest in "${rests[@]}"; do
        quoted=$rest
        [ -n "$is_plain" ] || _confstore_quote "$rest" "$quote"
        COMPREPLY+=("$text$quoted")
    done
    [ "${#rests[@]}" -gt 1 ] && [ -z "$common$is_plain" ] || return 0
    for quoted in "${COMPREPLY[@]}"; do
        [ "${quoted:${#text}:1}" = "${COMPREPLY[0]:${#text}:1}" ] || return 0
    done
    rest=${COMPREPLY[0]:${#text}}
    case $quote$rest in
    "\\'"*) COMPREPLY[0]="$text\"'\"${rest:2}" ;;
    \\*) COMPREPLY[0]="$text'${rest:1:1}'${rest:2}" ;;
    *) COMPREPLY=() ;;
    esac
}

# Completes a pointer. The status is 1 if the cursor is at none.
_confstore_pointers() {
    local text=$1 option='' bare='' index last current folder parent step quote is_known is_new=''
    local -a typed places rests
    _confstore_take_words
    last=$((${#typed[@]} - 1)) current=${typed[-1]}
    for ((index = 1; index < last; index++)); do
        if [ -n "$option" ]; then
            option=''
        elif [ -n "$bare" ] || [[ ${typed[index]} != -?* ]]; then
            places+=("${typed[index]}")
        elif [ "${typed[index]}" = -- ]; then
            bare=yes
        elif [[ " $_confstore_valued " == *" ${typed[index]} "* ]]; then
            option=${typed[index]}
        fi
    done
    if [ -z "$option$bare" ] && [[ $current == --hide=* ]]; then
        current=${current#--hide=}
    elif [ -n "$option" ]; then
        [ "$option" = --hide ] || return 1
    else
        [ -n "$bare" ] || [[ $current != -* ]] || return 1
        _confstore_is_pointer "${places[0]-}" "${#places[@]}" || return 1
        case ${places[0]}:${#places[@]} in set:3 | move:4) is_new=yes ;; esac
    fi
    [[ -n $is_known && ${#places[@]} -ge 3 && /$current == /?(/*) ]] || return 0
    folder=${places[1]} step=${current##*/} parent=${current%"${current##*/}"}
    [[ $folder != '~'?(/*) ]] || folder=$HOME${folder#'~'}
    _confstore_take_rests "$folder" "${places[2]}" "${parent%/}" "$step" "$is_new"
    [ "${#rests[@]}" -gt 0 ] || return 0
    # Only of one that is left it is asked whether there is more below it.
    if [ "${#rests[@]}" -eq 1 ] &&
        confstore keys -- "$folder" "${places[2]}" "${parent:-/}$step${rests[0]}" >/dev/null 2>&1; then
        compopt -o nospace
        rests[0]+=/
    fi
    [ -n "$parent" ] || rests=("${rests[@]/#//}")
    compopt -o nosort 2>/dev/null
    _confstore_reply "$text" "$quote"
}

# ---- words

_confstore() {
    local current=${COMP_WORDS[COMP_CWORD]} word=${COMP_WORDS[1]-} place=0 index folder='' files=''
    COMPREPLY=()
    ! _confstore_pointers "$2" || return 0
    if [ "$COMP_CWORD" -eq 1 ]; then
        mapfile -t COMPREPLY < <(compgen -W "$_confstore_words --help --version" -- "$current")
        return
    fi
    if [ "$word" = help ]; then
        mapfile -t COMPREPLY < <(compgen -W "$_confstore_words" -- "$current")
        return
    fi
    for ((index = 2; index < COMP_CWORD; index++)); do
        case ${COMP_WORDS[index]} in
        --about | --all | --checkpoint-after | --at | --from | --to | --default | --file | --hide | --if-value | --if-count | --keep-dropped | --wait)
            index=$((index + 1))
            # bash takes `KEY=TEXT` for three words
            [ "${COMP_WORDS[index + 1]:-}" != = ] || index=$((index + 2))
            ;;
        --files) files=--files ;;
        -?*) ;;
        *)
            place=$((place + 1))
            [ "$place" -ne 1 ] || folder=${COMP_WORDS[index]}
            ;;
        esac
    done
    case ${COMP_WORDS[COMP_CWORD - 1]} in
    --about | --checkpoint-after | --at | --from | --to | --default | --hide | --if-value | --if-count | --wait) return ;;
    --file | --keep-dropped)
        compopt -o filenames
        mapfile -t COMPREPLY < <(compgen -f -- "$current")
        return
        ;;
    --all)
        compopt -o filenames
        mapfile -t COMPREPLY < <(compgen -d -- "$current")
        return
        ;;
    esac
    if [[ $current == -* ]]; then
        mapfile -t COMPREPLY < <(compgen -W "$(_confstore_options "$word")" -- "$current")
        return
    fi
    case $word$files:$place in
    import:2 | batch:1 | diff--files:[01] | format:* | check:*)
        compopt -o filenames
        mapfile -t COMPREPLY < <(compgen -f -- "$current")
        ;;
    export:1 | import:1 | set:1 | delete:1 | copy:1 | copy:2 | rename:1 | rename:2 | move:1 | get:1 | keys:1 | exists:1 | log:1 | diff:1)
        mapfile -t COMPREPLY < <(compgen -W "$(_confstore_names "$folder")" -- "$current")
        ;;
    *:0 | salvage:1 | backup:1)
        compopt -o filenames
        mapfile -t COMPREPLY < <(compgen -d -- "$current")
        ;;
    esac
}

complete -F _confstore confstore
