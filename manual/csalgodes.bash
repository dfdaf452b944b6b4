# shellcheck shell=bash
# Completion of csalgodes in bash. library/install lays it where the package bash-completion looks for it. It
# needs nothing of that package: without it, source this file, in ~/.bashrc say.
#
# Offered are the commands, the options of a command that are not given yet, and for its names files or
# folders. For a number nothing is offered.

# What the names of a command are, in their order.
_csalgodes_names() { # COMMAND
    case $1 in
    cut) echo file folder ;;
    show) echo file ;;
    store | fetch) echo file file ;;
    join) echo folder file ;;
    compare) echo folder folder ;;
    move-cut) echo file folder ;;
    move-weigh) echo folder file ;;
    move-check) echo folder folder ;;
    help) echo command ;;
    esac
}

_csalgodes_options() { # COMMAND
    case $1 in
    cut) echo --order --key --stamp --help ;;
    show) echo --help ;;
    store) echo --order --key --keeper --help ;;
    fetch) echo --order --key --keeper --replace --help ;;
    join) echo --order --key --stamp --length --replace --help ;;
    compare) echo --order --help ;;
    move-cut) echo --from --order --key --length --stamp --keeper --help ;;
    move-weigh) echo --from --order --key --length --stamp --keepers --keeper --replace --help ;;
    move-check) echo --from --order --key --help ;;
    esac
}

# Whether a word sends input or output to the file that follows it.
_csalgodes_redirects() { # WORD
    case $1 in
    '<' | '>' | '>>' | '>|' | '&>' | '&>>') return 0 ;;
    *) return 1 ;;
    esac
}

# Goes through the words of the line. Sets $kind to what the one that is typed can be: a number, a file, a name,
# or, before the word '--', a name or an option, which is 'any'. Counts the names before it in $names, and lists
# the options given in $given.
_csalgodes_look() {
    local i word next=any
    kind=any names=0 given=' '
    for ((i = 2; i < ${#COMP_WORDS[@]}; i++)); do
        word=${COMP_WORDS[i]}
        if _csalgodes_redirects "${COMP_WORDS[i - 1]}"; then
            [ "$i" -ne "$COMP_CWORD" ] || kind='file'
            continue
        elif [ "$i" -eq "$COMP_CWORD" ]; then
            kind=$next
            [ "$next" != number ] || next=any
            continue
        elif _csalgodes_redirects "$word"; then
            continue
        fi
        case $next:$word in
        number:*) next=any ;;
        any:--) next=name ;;
        any:--order | any:--from | any:--key | any:--stamp | any:--keeper | any:--keepers | any:--length)
            given+="$word " next=number
            ;;
        any:-?*) given+="$word " ;;
        *) [ "$i" -gt "$COMP_CWORD" ] || names=$((names + 1)) ;;
        esac
    done
}

_csalgodes_offer() { # WORD..
    mapfile -t COMPREPLY < <(compgen -W "$*" -- "${COMP_WORDS[COMP_CWORD]}")
}

_csalgodes() {
    local IFS=$' \t\n' commands=(cut show store fetch join compare move-cut move-weigh move-check)
    local command=${COMP_WORDS[1]-} typed=${COMP_WORDS[COMP_CWORD]} option left=() wanted=() kind names given
    COMPREPLY=()
    if [ "$COMP_CWORD" -eq 1 ]; then
        case $typed in
        -*) _csalgodes_offer --help --version ;;
        *) _csalgodes_offer "${commands[@]}" help ;;
        esac
        return
    fi
    _csalgodes_look
    for option in $(_csalgodes_options "$command"); do
        [[ $given == *" $option "* ]] || left+=("$option")
    done
    read -r -a wanted < <(_csalgodes_names "$command")
    # where all names are given, only options can follow
    if [ "$kind" = any ] && { [[ $typed == -* ]] || [ "$names" -ge "${#wanted[@]}" ]; }; then
        kind=option
    elif [ "$kind" = any ] || [ "$kind" = name ]; then
        kind=${wanted[names]-}
    fi
    # bash completes the names of files itself, and so quotes them as it does everywhere
    case $kind in
    option) _csalgodes_offer "${left[@]}" ;;
    file) compopt -o default ;;
    folder) compopt -o dirnames ;;
    command) _csalgodes_offer "${commands[@]}" ;;
    esac
}

complete -F _csalgodes csalgodes
