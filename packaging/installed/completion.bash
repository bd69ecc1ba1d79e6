# Completion of the command `tiling` for bash; packaging/install.sh puts it where bash-completion looks.
# tools/words.awk has the same table, and checks/install.sh compares the two.

# What may stand behind a key and its sign of equality, with blanks between.
_tiling_values() {
    case $1 in
    rule) echo 'chair p2 p3 ab halfhex -' ;;
    glue) echo 'yes no' ;;
    layers) echo 'svg list census svg,list list,census svg,list,census' ;;
    at) echo '0,0,0,0' ;;
    half) echo '20,12' ;;
    addr) echo '0: 1: 2: 3:' ;;
    esac
}

# The keys of a command.
_tiling_keys() {
    case $1 in
    place) echo 'rule addr' ;;
    neighbour) echo 'rule addr edge' ;;
    walk) echo 'rule addr seed grow path' ;;
    draw) echo 'rule addr at half layers seed glue' ;;
    check | calc) echo 'rule' ;;
    drill) echo 'rule n seed' ;;
    star) echo 'rule addr vertex seed' ;;
    verify) echo 'rule addr at half seed' ;;
    esac
}

# The options of a command of the Python package.
_tiling_options() {
    local frame='--at --seed --addr --out --help'
    case $1 in
    board) echo "--tiles --half --shape --halves --by --colours --to --tile $frame" ;;
    poster) echo "--size --tile --by --colours --line --joined --cut --star --jobs --halves --to $frame" ;;
    explore) echo '--at --seed --addr --print --help' ;;
    atlas) echo "$frame" ;;
    rules) echo '--help' ;;
    esac
}

_tiling() {
    local word=${COMP_WORDS[COMP_CWORD]} before=${COMP_WORDS[COMP_CWORD - 1]} command=${COMP_WORDS[1]} key= i
    COMPREPLY=()
    compopt -o nospace 2> /dev/null
    if [ "$COMP_CWORD" -eq 1 ]; then
        compopt +o nospace 2> /dev/null
        COMPREPLY=($(compgen -W 'place neighbour walk draw check calc drill star verify board poster explore atlas rules
            --help --version' -- "$word"))
        return
    fi
    case $command in
    rules)
        compopt +o nospace 2> /dev/null
        COMPREPLY=($(compgen -W "$(_tiling_options rules)" -- "$word"))
        return
        ;;
    board | poster | explore | atlas)
        compopt +o nospace -o filenames 2> /dev/null
        case $before in
        --to) COMPREPLY=($(compgen -W "$([ "$command" = board ] && echo json csv svg npz dxf || echo svg dxf)" -- "$word")) ;;
        --by) COMPREPLY=($(compgen -W "kind turn neighbours $([ "$command" = board ] && echo child || echo star ring)" -- "$word")) ;;
        --shape) COMPREPLY=($(compgen -W 'round rectangle nearest' -- "$word")) ;;
        *)
            case $word in
            -*) COMPREPLY=($(compgen -W "$(_tiling_options "$command")" -- "$word")) ;;
            *) COMPREPLY=($([ "$COMP_CWORD" -gt 2 ] || compgen -W 'p2 p3 ab chair halfhex' -- "$word"; compgen -f -- "$word")) ;;
            esac
            ;;
        esac
        return
        ;;
    esac
    # (bash divides words at the sign of equality)
    [ "$word" != = ] || { key=$before word=; }
    [ "$before" != = ] || key=${COMP_WORDS[COMP_CWORD - 2]}
    if [ -n "$key" ]; then
        compopt +o nospace 2> /dev/null
        COMPREPLY=($(compgen -W "$(_tiling_values "$key")" -- "$word"))
        return
    fi
    local given=" ${COMP_WORDS[*]:2:COMP_CWORD-2} "
    for i in $(_tiling_keys "$command"); do
        case $given in
        *" $i "*) ;;
        *) COMPREPLY+=($(compgen -W "$i=" -- "$word")) ;;
        esac
    done
}
complete -F _tiling tiling
