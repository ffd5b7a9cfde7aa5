# Completion of gate(1) for fish: commands, options, and files.
complete -c gate -f
complete -c gate -n __fish_use_subcommand -a check -d 'Say whether a module is valid'
complete -c gate -n __fish_use_subcommand -a check-all -d 'Say it of each of many files'
complete -c gate -n __fish_use_subcommand -a explain -d 'Say where and why a module is refused'
complete -c gate -n __fish_use_subcommand -a exports -d 'List what a module exports'
complete -c gate -n __fish_use_subcommand -a run -d 'Run calls of a module'
complete -c gate -n __fish_use_subcommand -a stream -d 'Run any number of calls of a module'
complete -c gate -n __fish_use_subcommand -a help -d 'Help on a command'
complete -c gate -n __fish_use_subcommand -s V -l version -d 'The version'
complete -c gate -s h -l help -d Help
complete -c gate -n '__fish_seen_subcommand_from help' -a 'check check-all explain exports run stream'

set -l judging '__fish_seen_subcommand_from check check-all run stream; and not __fish_seen_subcommand_from help'
set -l running '__fish_seen_subcommand_from run stream; and not __fish_seen_subcommand_from help'
complete -c gate -n '__fish_seen_subcommand_from explain exports; and not __fish_seen_subcommand_from help' -k -a '(__fish_complete_suffix .wasm)'
complete -c gate -n $judging -k -a '(__fish_complete_suffix .wasm)'
complete -c gate -n $judging -l workers -x -d 'How many threads work at once: 1 to 64, by default 4'
complete -c gate -n $judging -l piece -x -d 'How many function bodies or calls a thread takes at a time: 1 to 65535, by default 16'
complete -c gate -n $running -l fuel -x -d 'How many units of fuel each call has: 0 to 1000000000, by default 1000000'
complete -c gate -n $running -l frames -x -d 'How many functions of a call may be entered and not yet left: 1 to 4096, by default 1024'
complete -c gate -n $running -l pages -x -d 'How many pages of 64 KiB the memory of a call may have: 0 to 1024, by default 256'
complete -c gate -n '__fish_seen_subcommand_from explain; and not __fish_seen_subcommand_from help' -s j -l json -d 'Print one JSON object'
complete -c gate -n '__fish_seen_subcommand_from check-all' -s 0 -l null -d 'Names on standard input end with a byte 0'
complete -c gate -n '__fish_seen_subcommand_from check-all' -s r -l recursive -d 'A folder stands for all modules in it and in its folders'
complete -c gate -n '__fish_seen_subcommand_from check-all stream' -l progress -d 'Print on standard error how many lines are written'
complete -c gate -n '__fish_seen_subcommand_from check-all' -F
