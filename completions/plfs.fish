# Completion for fish of the commands plfs, plfs_copy, plfs_check and plfs_serve: `source completions/plfs.fish`, or a copy in ~/.config/fish/completions.
function __plfs_is_word --description 'Whether the word that is typed has this number behind the command'
    test (count (commandline -opc)) -eq $argv[1]
end

# A colon parts the folders of ROOT: the last of them is completed.
function __plfs_folders
    set -l word (commandline -ct)
    set -l before (string replace -r '[^:]*$' '' -- $word)
    for folder in (__fish_complete_directories (string replace -r '^.*:' '' -- $word) folder)
        echo $before$folder
    end
end

for program in plfs plfs_copy plfs_check plfs_serve
    complete -c $program -f
    complete -c $program -n '__plfs_is_word 1' -a '(__plfs_folders)'
    complete -c $program -n '__plfs_is_word 1' -l help -d 'how to call the program, and its statuses'
    complete -c $program -n '__plfs_is_word 1' -l version -d 'the version'
end
complete -c plfs -n '__plfs_is_word 2' -a 'run play gen cat stat map flatten trunc rename recover ls migrate pack unpack names drain'
complete -c plfs_copy -n '__plfs_is_word 2' -a 'put get import export'
complete -c plfs_serve -n '__plfs_is_word 2' -l at -d 'serves several processes, which come by the folder behind it'
complete -c plfs_serve -n '__plfs_is_word 3' -a '(__fish_complete_directories (commandline -ct))'
