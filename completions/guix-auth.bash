# Completion of guix-auth for bash: commands, options, and files and folders where a value is one.

# The words that begin with what is typed so far, without options that stand there already.
_guix_auth_words() { # WORD...
    local word
    for word in "$@"; do
        case " ${COMP_WORDS[*]:0:COMP_CWORD} " in *" ${word%=} "*) continue ;; esac
        case $word in "$typed"*) COMPREPLY+=("$word") ;; esac
    done
    # A value follows an equals sign directly.
    case "${COMPREPLY[*]}" in *=) compopt -o nospace 2>/dev/null ;; esac
}

_guix_auth_paths() { # -f for files, -d for folders
    local path
    compopt -o filenames 2>/dev/null
    while IFS= read -r path; do COMPREPLY+=("$path"); done < <(compgen "$1" -- "$typed")
}

# The name of the option whose value is typed, or nothing. Bash takes an equals sign for a word of its own.
_guix_auth_option() {
    local before=${COMP_WORDS[COMP_CWORD - 1]}
    [ "$typed" = = ] && typed='' && printf '%s' "$before" && return
    [ "$before" = = ] && before=${COMP_WORDS[COMP_CWORD - 2]}
    case $before in
        -r | --repository | -k | --keyring | --end | --cache-key | --historical-authorizations | --clones) printf '%s' "$before" ;;
    esac
}

_guix_auth() {
    local typed=${COMP_WORDS[COMP_CWORD]} command=${COMP_WORDS[1]} option
    COMPREPLY=()
    if [ "$COMP_CWORD" -eq 1 ]; then
        _guix_auth_words authenticate channels --help
        return
    fi
    option=$(_guix_auth_option)
    [ "$typed" = = ] && typed=''
    case $command$option in
        authenticate-r | authenticate--repository | channels--clones) _guix_auth_paths -d ;;
        authenticate--historical-authorizations) _guix_auth_paths -f ;;
        authenticate-k | authenticate--keyring | authenticate--end | authenticate--cache-key) ;;
        authenticate*)
            case $typed in -*) _guix_auth_words -r -k --repository= --keyring= --end= --stats --cache-key= --historical-authorizations= ;; esac ;;
        channels*)
            case $typed in
                -*) _guix_auth_words --clones= --allow-downgrades --disable-authentication ;;
                *) _guix_auth_paths -f ;;
            esac ;;
    esac
}

complete -F _guix_auth guix-auth
