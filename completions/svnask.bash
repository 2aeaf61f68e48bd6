# Completion of svnask in bash 4.4 and later: 'svnask --complete' says what may stand at the cursor.

_svnask() {
    local line=${COMP_LINE:0:COMP_POINT} command=${1/#"~/"/"$HOME/"} at left piece words=() found=()
    # Bash cuts words at colons, equals signs and others. What has no space between is one word.
    for ((at = 0; at <= COMP_CWORD; at++)); do
        left=${line#"${line%%[![:space:]]*}"}
        piece=${COMP_WORDS[at]}
        ((at < COMP_CWORD)) || piece=$left
        if ((at > 0)) && [[ $left == "$line" ]]; then
            words[${#words[@]} - 1]+=$piece
        else
            words+=("$piece")
        fi
        line=${left#"$piece"}
    done
    mapfile -t found < <("$command" --complete bash "$COMP_WORDBREAKS" "${words[@]:1}" 2>/dev/null)
    # The words are quoted already. Names of files are listed without their folders.
    COMPREPLY=("${found[@]:1}")
    [[ ${found[0]-} != files ]] || compopt -o filenames -o noquote 2>/dev/null
    [[ ${#COMPREPLY[@]} != 1 || ${COMPREPLY[0]} != */ ]] || compopt -o nospace 2>/dev/null
}

complete -F _svnask svnask
