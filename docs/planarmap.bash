# Completion of the words of planarmap for bash: `source docs/planarmap.bash`.
_planarmap() {
    local classes='general quartic eulerian bipartite'
    case $COMP_CWORD in
    1) mapfile -t COMPREPLY < <(compgen -W 'sample unsample draw trip census check canon medial unmedial dual layers close open' -- "$2") ;;
    2)
        case ${COMP_WORDS[1]} in
        sample | unsample | draw | trip | census) mapfile -t COMPREPLY < <(compgen -W "$classes" -- "$2") ;;
        check) mapfile -t COMPREPLY < <(compgen -W "$classes tri" -- "$2") ;;
        close) mapfile -t COMPREPLY < <(compgen -W 'eulerian tri' -- "$2") ;;
        open) mapfile -t COMPREPLY < <(compgen -W eulerian -- "$2") ;;
        esac
        ;;
    esac
}
complete -F _planarmap planarmap ./planarmap
