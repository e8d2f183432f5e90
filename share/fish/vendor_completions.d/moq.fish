# fish completion for moq
function __fish_moq_runs
    set -l words (commandline -opc)
    test (count $words) -gt 1; and test $words[2] = $argv[1]
end
complete -c moq -f
complete -c moq -n __fish_use_subcommand -l help -d 'shows every command'
complete -c moq -n __fish_use_subcommand -l version -d 'shows the version'
complete -c moq -n __fish_use_subcommand -a help -d 'shows every command, or how to call one'
complete -c moq -n '__fish_moq_runs help' -a 'make add remove list seal open pages'
complete -c moq -n __fish_use_subcommand -a make -d 'makes a new track store'
complete -c moq -n '__fish_moq_runs make' -l tracks -x
complete -c moq -n '__fish_moq_runs make' -l wait -x
complete -c moq -n '__fish_moq_runs make' -l help -d 'shows how to call it'
complete -c moq -n '__fish_moq_runs make' -F
complete -c moq -n __fish_use_subcommand -a add -d 'adds a track to a store'
complete -c moq -n '__fish_moq_runs add' -l sending
complete -c moq -n '__fish_moq_runs add' -l receiving
complete -c moq -n '__fish_moq_runs add' -l name -x
complete -c moq -n '__fish_moq_runs add' -l key-id -x
complete -c moq -n '__fish_moq_runs add' -l suite -x -a '1 2 3 4 5'
complete -c moq -n '__fish_moq_runs add' -l key -r -F
complete -c moq -n '__fish_moq_runs add' -l hex
complete -c moq -n '__fish_moq_runs add' -l wait -x
complete -c moq -n '__fish_moq_runs add' -l help -d 'shows how to call it'
complete -c moq -n '__fish_moq_runs add' -F
complete -c moq -n __fish_use_subcommand -a remove -d 'removes a track from a store'
complete -c moq -n '__fish_moq_runs remove' -l name -x
complete -c moq -n '__fish_moq_runs remove' -l key-id -x
complete -c moq -n '__fish_moq_runs remove' -l wait -x
complete -c moq -n '__fish_moq_runs remove' -l help -d 'shows how to call it'
complete -c moq -n '__fish_moq_runs remove' -F
complete -c moq -n __fish_use_subcommand -a list -d 'shows what a store holds'
complete -c moq -n '__fish_moq_runs list' -l json
complete -c moq -n '__fish_moq_runs list' -l help -d 'shows how to call it'
complete -c moq -n '__fish_moq_runs list' -F
complete -c moq -n __fish_use_subcommand -a seal -d 'seals a plaintext into an object'
complete -c moq -n '__fish_moq_runs seal' -l name -x
complete -c moq -n '__fish_moq_runs seal' -l key-id -x
complete -c moq -n '__fish_moq_runs seal' -l group -x
complete -c moq -n '__fish_moq_runs seal' -l object -x
complete -c moq -n '__fish_moq_runs seal' -l properties -r -F
complete -c moq -n '__fish_moq_runs seal' -l in -r -F
complete -c moq -n '__fish_moq_runs seal' -l out -r -F
complete -c moq -n '__fish_moq_runs seal' -l force
complete -c moq -n '__fish_moq_runs seal' -l hex
complete -c moq -n '__fish_moq_runs seal' -l wait -x
complete -c moq -n '__fish_moq_runs seal' -l help -d 'shows how to call it'
complete -c moq -n '__fish_moq_runs seal' -F
complete -c moq -n __fish_use_subcommand -a open -d 'opens an object'
complete -c moq -n '__fish_moq_runs open' -l name -x
complete -c moq -n '__fish_moq_runs open' -l key-id -x
complete -c moq -n '__fish_moq_runs open' -l group -x
complete -c moq -n '__fish_moq_runs open' -l object -x
complete -c moq -n '__fish_moq_runs open' -l properties -r -F
complete -c moq -n '__fish_moq_runs open' -l in -r -F
complete -c moq -n '__fish_moq_runs open' -l out -r -F
complete -c moq -n '__fish_moq_runs open' -l force
complete -c moq -n '__fish_moq_runs open' -l hex
complete -c moq -n '__fish_moq_runs open' -l help -d 'shows how to call it'
complete -c moq -n '__fish_moq_runs open' -F
complete -c moq -n __fish_use_subcommand -a pages -d 'prints the manual page or a shell\'s completions'
complete -c moq -n '__fish_moq_runs pages' -l help -d 'shows how to call it'
complete -c moq -n '__fish_moq_runs pages' -a 'man bash zsh fish'
