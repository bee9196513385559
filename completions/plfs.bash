# Completion for bash of the commands plfs, plfs_copy, plfs_check and plfs_serve: `source completions/plfs.bash`.
_plfs() {
    local word=${COMP_WORDS[COMP_CWORD]} place=$COMP_CWORD i verbs
    case ${COMP_WORDS[0]##*/} in
    plfs_copy) verbs='put get import export' ;;
    plfs_check) verbs='' ;;
    plfs_serve) verbs='--at' ;;
    *) verbs='run play gen cat stat map flatten trunc rename recover ls migrate pack unpack names drain' ;;
    esac
    # A colon parts the folders of ROOT, and is a word of its own here.
    for ((i = 1; i <= COMP_CWORD; i++)); do
        if [[ ${COMP_WORDS[i]} == *: ]]; then
            place=$((place - 1))
            [[ $i -lt $COMP_CWORD ]] && place=$((place - 1))
        fi
    done
    COMPREPLY=()
    case $place in
    1)
        if [[ $word == -* ]]; then
            mapfile -t COMPREPLY < <(compgen -W '--help --version' -- "$word")
        else
            compopt -o filenames 2>/dev/null
            mapfile -t COMPREPLY < <(compgen -d -- "${word##*:}")
        fi
        ;;
    3)
        if [[ ${COMP_WORDS[0]##*/} == plfs_serve && ${COMP_WORDS[COMP_CWORD - 1]} == --at ]]; then
            compopt -o filenames 2>/dev/null
            mapfile -t COMPREPLY < <(compgen -d -- "$word")
        fi
        ;;
    2)
        mapfile -t COMPREPLY < <(compgen -W "$verbs" -- "$word")
        ;;
    esac
}
complete -F _plfs plfs plfs_copy plfs_check plfs_serve
