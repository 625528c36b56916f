# Completion of guix-auth for fish: commands, options, and files and folders where a value is one.

function __guix_auth_is --description 'Whether the command is this one'
    set -l words (commandline -opc)
    test (count $words) -ge 2; and test "$words[2]" = "$argv[1]"
end

function __guix_auth_begins --description 'Whether the command is still wanted'
    test (count (commandline -opc)) -eq 1
end

# The word that is typed may have the option and its equals sign before the value.
function __guix_auth_folders --description 'Folders that the typed value may be'
    __fish_complete_directories (commandline -ct | string replace -r -- '^--[^=]*=' '') ''
end

complete -c guix-auth -f
complete -c guix-auth -n __guix_auth_begins -a authenticate -d 'Judge one target of a repository'
complete -c guix-auth -n __guix_auth_begins -a channels -d 'Judge a list of channels'
complete -c guix-auth -n __guix_auth_begins -l help -d 'Print the help'

complete -c guix-auth -n '__guix_auth_is authenticate' -s r -l repository -x -a '(__guix_auth_folders)' -d 'The repository'
complete -c guix-auth -n '__guix_auth_is authenticate' -s k -l keyring -x -d 'The branch of keys'
complete -c guix-auth -n '__guix_auth_is authenticate' -l end -x -d 'The target'
complete -c guix-auth -n '__guix_auth_is authenticate' -l stats -d 'Print who signed'
complete -c guix-auth -n '__guix_auth_is authenticate' -l cache-key -x -d 'The record that is read and kept'
complete -c guix-auth -n '__guix_auth_is authenticate' -l historical-authorizations -r -F -d 'Keys for commits without a file of authorisations'

complete -c guix-auth -n '__guix_auth_is channels' -F
complete -c guix-auth -n '__guix_auth_is channels' -l clones -x -a '(__guix_auth_folders)' -d 'The folder of the clones'
complete -c guix-auth -n '__guix_auth_is channels' -l allow-downgrades -d 'A channel may go back'
complete -c guix-auth -n '__guix_auth_is channels' -l disable-authentication -d 'Judge no channel'
