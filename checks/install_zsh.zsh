# Completes some lines by the function _tiling of a folder, in a shell of its own, and compares what is offered:
#   zsh -f checks/install_zsh.zsh FOLDER      ends with 1 where another word is offered
zmodload zsh/zpty || exit 0
folder=$1
fault=0

# All that the function offers for a line, by compadd and _describe of our own.
offered() {
    local -a words=("${(@s: :)1}") found
    local CURRENT=$#words PREFIX=${words[-1]} IPREFIX=
    compadd() {
        local word
        while [[ ${1-} == -* ]]; do
            case $1 in
            -S) shift 2 ;;
            --) shift; break ;;
            *) shift ;;
            esac
        done
        for word; do [[ $word != $PREFIX* ]] || found+=($word); done
    }
    _describe() { compadd -- "${(@)${(@P)2}%%:*}" }
    _files() { found+=(FILES) }
    compset() { [[ $PREFIX == *=* ]] && IPREFIX=${PREFIX%%=*}= PREFIX=${PREFIX#*=} }
    source $folder/_tiling
    print -r -- ${(o)found}
}
expect() {
    local told=$(offered "$1")
    [[ $told == $2 ]] || { print -r -- "'$1' is completed to '$told' and not '$2'"; fault=1 }
}
expect 'tiling a' 'atlas'
expect 'tiling pl' 'place'
expect 'tiling draw rule=p3 a' 'addr at'
expect 'tiling place rule=ha' 'halfhex'
expect 'tiling board p3 --t' '--tile --tiles --to'
expect 'tiling board p3 --to c' 'csv'
expect 'tiling atlas ' 'FILES ab chair halfhex p2 p3'
exit $fault
