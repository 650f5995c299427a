# SPDX-License-Identifier: Apache-2.0 OR MIT
# Completion of bplay for fish.
complete -c bplay -n __fish_use_subcommand -f -a run -d 'Play a script'
complete -c bplay -n __fish_use_subcommand -f -a check -d 'Judge a journal'
complete -c bplay -n __fish_use_subcommand -f -a mend -d 'Write what is whole of a journal that was cut off'
complete -c bplay -n __fish_use_subcommand -f -a chain -d 'Tell how a process came to a handle'
complete -c bplay -n __fish_use_subcommand -f -a call-of-reply -d 'Tell which call a reply answers'
complete -c bplay -n __fish_use_subcommand -f -a turns -d 'Tell the one-way calls on an object'
complete -c bplay -n __fish_use_subcommand -f -a script -d 'Tell the words of a script'
complete -c bplay -n __fish_use_subcommand -f -a help -d 'Print help'
complete -c bplay -l help -d 'Print help'
complete -c bplay -n __fish_use_subcommand -l version -d 'Print the version'
complete -c bplay -n '__fish_seen_subcommand_from run' -l threads -d "Run each seat's lines on a thread"
complete -c bplay -n '__fish_seen_subcommand_from run' -x -l turns -d 'How many turns a line has'
complete -c bplay -n '__fish_seen_subcommand_from run' -r -l journal -d 'Write the journal of the run here'
complete -c bplay -n '__fish_seen_subcommand_from run check chain call-of-reply turns' -l progress -d 'Tell how much is done'
complete -c bplay -n '__fish_seen_subcommand_from check' -l cut -d 'Judge what is whole of a journal that was cut off'
