#compdef tiling
# Completion of the command `tiling` for zsh; packaging/install.sh puts it where zsh looks.

_tiling() {
    local -A keys values options
    keys=(place 'rule addr' neighbour 'rule addr edge' walk 'rule addr seed grow path'
        draw 'rule addr at half layers seed glue' check rule calc rule drill 'rule n seed'
        star 'rule addr vertex seed' verify 'rule addr at half seed')
    values=(rule 'chair p2 p3 ab halfhex -' glue 'yes no' layers 'svg list census svg,list list,census svg,list,census'
        at '0,0,0,0' half '20,12' addr '0: 1: 2: 3:')
    local frame='--at --seed --addr --out --help'
    options=(board "--tiles --half --shape --halves --by --colours --to --tile $frame"
        poster "--size --tile --by --colours --line --joined --cut --star --jobs --halves --to $frame"
        explore '--at --seed --addr --print --help' atlas $frame rules --help)
    local -a names=(
        'place:where a tile lies' 'neighbour:the tile across an edge' 'walk:the tiles along a path of edges'
        'draw:the tiles of a window' 'check:whether a rule is accepted' 'calc:a script of questions'
        'drill:pseudorandom windows, for testing' 'star:the tiles around a vertex'
        'verify:checks a list of the tiles of a window' 'board:a patch as data'
        'poster:a page in millimetres, in colours or to be cut' 'explore:a page in the browser to pan and zoom'
        'atlas:a page about a rule' 'rules:the rules that there are'
        '--help:all arguments on one screen' '--version:what is installed')
    if ((CURRENT == 2)); then
        _describe 'command' names
        return
    fi
    local command=$words[2]
    if ((${+options[$command]})); then
        case $words[CURRENT-1] in
        --to) [[ $command == board ]] && compadd json csv svg npz dxf || compadd svg dxf ;;
        --by) compadd kind turn neighbours; [[ $command == board ]] && compadd child || compadd star ring ;;
        --shape) compadd round rectangle nearest ;;
        *)
            if [[ $PREFIX == -* || $command == rules ]]; then compadd -- ${=options[$command]}; else
                ((CURRENT > 3)) || compadd p2 p3 ab chair halfhex
                _files
            fi
            ;;
        esac
        return
    fi
    if compset -P '*='; then
        compadd -- ${=values[${IPREFIX%=}]}
        return
    fi
    local key
    for key in ${=keys[$command]}; do
        ((${words[(I)$key=*]})) || compadd -S = -- $key
    done
}
_tiling "$@"
