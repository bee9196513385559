# Completion for zsh of the commands plfs, plfs_copy, plfs_check and plfs_serve: `source completions/plfs.zsh` behind `compinit`.
_plfs() {
    case $CURRENT in
    2)
        if [[ $PREFIX == -* ]]; then
            compadd -- --help --version
        else
            # A colon parts the folders of ROOT.
            compset -P '*:'
            _files -/
        fi
        ;;
    3)
        case ${words[1]:t} in
        plfs_copy) compadd -- put get import export ;;
        plfs_check) ;;
        plfs_serve) compadd -- --at ;;
        *) compadd -- run play gen cat stat map flatten trunc rename recover ls migrate pack unpack names drain ;;
        esac
        ;;
    4)
        [[ ${words[1]:t} == plfs_serve && ${words[3]} == --at ]] && _files -/
        ;;
    esac
}
compdef _plfs plfs plfs_copy plfs_check plfs_serve
