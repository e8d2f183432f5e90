# fish completion for sframe
function __fish_sframe_runs
    set -l words (commandline -opc)
    test (count $words) -gt 1; and test $words[2] = $argv[1]
end
complete -c sframe -f
complete -c sframe -n __fish_use_subcommand -l help -d 'shows every command'
complete -c sframe -n __fish_use_subcommand -l version -d 'shows the version'
complete -c sframe -n __fish_use_subcommand -a help -d 'shows every command, or how to call one'
complete -c sframe -n '__fish_sframe_runs help' -a 'keygen make add remove list seal open seal-pieces check report header ratchet kid group-kid group-parts change-epoch pages'
complete -c sframe -n __fish_use_subcommand -a keygen -d 'makes a new base key'
complete -c sframe -n '__fish_sframe_runs keygen' -l out -r -F
complete -c sframe -n '__fish_sframe_runs keygen' -l bytes -x
complete -c sframe -n '__fish_sframe_runs keygen' -l hex
complete -c sframe -n '__fish_sframe_runs keygen' -l help -d 'shows how to call it'
complete -c sframe -n __fish_use_subcommand -a make -d 'makes a new store'
complete -c sframe -n '__fish_sframe_runs make' -l keys -x
complete -c sframe -n '__fish_sframe_runs make' -l wait -x
complete -c sframe -n '__fish_sframe_runs make' -l help -d 'shows how to call it'
complete -c sframe -n '__fish_sframe_runs make' -F
complete -c sframe -n __fish_use_subcommand -a add -d 'adds a key to a store'
complete -c sframe -n '__fish_sframe_runs add' -l sending
complete -c sframe -n '__fish_sframe_runs add' -l receiving
complete -c sframe -n '__fish_sframe_runs add' -l kid -x
complete -c sframe -n '__fish_sframe_runs add' -l suite -x -a '1 2 3 4 5'
complete -c sframe -n '__fish_sframe_runs add' -l key -r -F
complete -c sframe -n '__fish_sframe_runs add' -l hex
complete -c sframe -n '__fish_sframe_runs add' -l wait -x
complete -c sframe -n '__fish_sframe_runs add' -l help -d 'shows how to call it'
complete -c sframe -n '__fish_sframe_runs add' -F
complete -c sframe -n __fish_use_subcommand -a remove -d 'removes a key from a store'
complete -c sframe -n '__fish_sframe_runs remove' -l kid -x
complete -c sframe -n '__fish_sframe_runs remove' -l wait -x
complete -c sframe -n '__fish_sframe_runs remove' -l help -d 'shows how to call it'
complete -c sframe -n '__fish_sframe_runs remove' -F
complete -c sframe -n __fish_use_subcommand -a list -d 'shows what a store holds'
complete -c sframe -n '__fish_sframe_runs list' -l json
complete -c sframe -n '__fish_sframe_runs list' -l help -d 'shows how to call it'
complete -c sframe -n '__fish_sframe_runs list' -F
complete -c sframe -n __fish_use_subcommand -a seal -d 'seals a plaintext into a frame'
complete -c sframe -n '__fish_sframe_runs seal' -l kid -x
complete -c sframe -n '__fish_sframe_runs seal' -l in -r -F
complete -c sframe -n '__fish_sframe_runs seal' -l out -r -F
complete -c sframe -n '__fish_sframe_runs seal' -l force
complete -c sframe -n '__fish_sframe_runs seal' -l metadata -r -F
complete -c sframe -n '__fish_sframe_runs seal' -l offset -x
complete -c sframe -n '__fish_sframe_runs seal' -l hex
complete -c sframe -n '__fish_sframe_runs seal' -l log -r -F
complete -c sframe -n '__fish_sframe_runs seal' -l wait -x
complete -c sframe -n '__fish_sframe_runs seal' -l help -d 'shows how to call it'
complete -c sframe -n '__fish_sframe_runs seal' -F
complete -c sframe -n __fish_use_subcommand -a open -d 'opens a frame'
complete -c sframe -n '__fish_sframe_runs open' -l in -r -F
complete -c sframe -n '__fish_sframe_runs open' -l out -r -F
complete -c sframe -n '__fish_sframe_runs open' -l force
complete -c sframe -n '__fish_sframe_runs open' -l metadata -r -F
complete -c sframe -n '__fish_sframe_runs open' -l hex
complete -c sframe -n '__fish_sframe_runs open' -l wait -x
complete -c sframe -n '__fish_sframe_runs open' -l help -d 'shows how to call it'
complete -c sframe -n '__fish_sframe_runs open' -F
complete -c sframe -n __fish_use_subcommand -a seal-pieces -d 'seals a plaintext that is never in memory as a whole'
complete -c sframe -n '__fish_sframe_runs seal-pieces' -l kid -x
complete -c sframe -n '__fish_sframe_runs seal-pieces' -l out -r -F
complete -c sframe -n '__fish_sframe_runs seal-pieces' -l force
complete -c sframe -n '__fish_sframe_runs seal-pieces' -l in -r -F
complete -c sframe -n '__fish_sframe_runs seal-pieces' -l length -x
complete -c sframe -n '__fish_sframe_runs seal-pieces' -l metadata -r -F
complete -c sframe -n '__fish_sframe_runs seal-pieces' -l log -r -F
complete -c sframe -n '__fish_sframe_runs seal-pieces' -l wait -x
complete -c sframe -n '__fish_sframe_runs seal-pieces' -l help -d 'shows how to call it'
complete -c sframe -n '__fish_sframe_runs seal-pieces' -F
complete -c sframe -n __fish_use_subcommand -a check -d 'checks whether a frame is genuine'
complete -c sframe -n '__fish_sframe_runs check' -l in -r -F
complete -c sframe -n '__fish_sframe_runs check' -l length -x
complete -c sframe -n '__fish_sframe_runs check' -l metadata -r -F
complete -c sframe -n '__fish_sframe_runs check' -l help -d 'shows how to call it'
complete -c sframe -n '__fish_sframe_runs check' -F
complete -c sframe -n __fish_use_subcommand -a report -d 'counts what a key has opened'
complete -c sframe -n '__fish_sframe_runs report' -l kid -x
complete -c sframe -n '__fish_sframe_runs report' -l help -d 'shows how to call it'
complete -c sframe -n '__fish_sframe_runs report' -F
complete -c sframe -n __fish_use_subcommand -a header -d 'writes or reads the header of a frame'
complete -c sframe -n '__fish_sframe_runs header' -l kid -x
complete -c sframe -n '__fish_sframe_runs header' -l ctr -x
complete -c sframe -n '__fish_sframe_runs header' -l offset -x
complete -c sframe -n '__fish_sframe_runs header' -l in -r -F
complete -c sframe -n '__fish_sframe_runs header' -l hex
complete -c sframe -n '__fish_sframe_runs header' -l help -d 'shows how to call it'
complete -c sframe -n __fish_use_subcommand -a ratchet -d 'walks a base key forward'
complete -c sframe -n '__fish_sframe_runs ratchet' -l suite -x -a '1 2 3 4 5'
complete -c sframe -n '__fish_sframe_runs ratchet' -l key -r -F
complete -c sframe -n '__fish_sframe_runs ratchet' -l steps -x
complete -c sframe -n '__fish_sframe_runs ratchet' -l out -r -F
complete -c sframe -n '__fish_sframe_runs ratchet' -l hex
complete -c sframe -n '__fish_sframe_runs ratchet' -l help -d 'shows how to call it'
complete -c sframe -n __fish_use_subcommand -a kid -d 'writes the key number of a step'
complete -c sframe -n '__fish_sframe_runs kid' -l generation -x
complete -c sframe -n '__fish_sframe_runs kid' -l step -x
complete -c sframe -n '__fish_sframe_runs kid' -l bits -x
complete -c sframe -n '__fish_sframe_runs kid' -l help -d 'shows how to call it'
complete -c sframe -n __fish_use_subcommand -a group-kid -d 'writes the key number of a group\'s member'
complete -c sframe -n '__fish_sframe_runs group-kid' -l context -x
complete -c sframe -n '__fish_sframe_runs group-kid' -l index -x
complete -c sframe -n '__fish_sframe_runs group-kid' -l epoch -x
complete -c sframe -n '__fish_sframe_runs group-kid' -l index-width -x
complete -c sframe -n '__fish_sframe_runs group-kid' -l epoch-width -x
complete -c sframe -n '__fish_sframe_runs group-kid' -l help -d 'shows how to call it'
complete -c sframe -n __fish_use_subcommand -a group-parts -d 'takes such a key number apart'
complete -c sframe -n '__fish_sframe_runs group-parts' -l kid -x
complete -c sframe -n '__fish_sframe_runs group-parts' -l index-width -x
complete -c sframe -n '__fish_sframe_runs group-parts' -l epoch-width -x
complete -c sframe -n '__fish_sframe_runs group-parts' -l help -d 'shows how to call it'
complete -c sframe -n __fish_use_subcommand -a change-epoch -d 'removes the receiving keys of an epoch'
complete -c sframe -n '__fish_sframe_runs change-epoch' -l epoch-width -x
complete -c sframe -n '__fish_sframe_runs change-epoch' -l epoch-bits -x
complete -c sframe -n '__fish_sframe_runs change-epoch' -l wait -x
complete -c sframe -n '__fish_sframe_runs change-epoch' -l help -d 'shows how to call it'
complete -c sframe -n '__fish_sframe_runs change-epoch' -F
complete -c sframe -n __fish_use_subcommand -a pages -d 'prints the manual page or a shell\'s completions'
complete -c sframe -n '__fish_sframe_runs pages' -l help -d 'shows how to call it'
complete -c sframe -n '__fish_sframe_runs pages' -a 'man bash zsh fish'
