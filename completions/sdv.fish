# Completion for fish: put this file into ~/.config/fish/completions.

# how many words of the command stand before the cursor, options and their files left out
function __sdv_place
    set -l words (commandline -opc)[3..]
    set -l place 0
    set -l skip 0
    for word in $words
        if test $skip -eq 1
            set skip 0
        else if contains -- $word --in --out --trace --binary --card --schedule --registers --script --save --allow
            set skip 1
        else
            set place (math $place + 1)
        end
    end
    echo $place
end

# whether the cursor is at word PLACE of one of the commands: __sdv_at PLACE COMMAND..
function __sdv_at
    __fish_seen_subcommand_from $argv[2..]; and test (__sdv_place) -eq $argv[1]
end

set -l commands frame verify certify check run batch explain emit audit drive card try

complete -c sdv -f
complete -c sdv -n "not __fish_seen_subcommand_from $commands" -s h -l help -d "How the program is called"
complete -c sdv -n "not __fish_seen_subcommand_from $commands" -s V -l version -d "The version"
complete -c sdv -n "not __fish_seen_subcommand_from $commands" -a frame -d "The six bytes of a command frame"
complete -c sdv -n "not __fish_seen_subcommand_from $commands" -a verify -d "All that is wrong with scripts"
complete -c sdv -n "not __fish_seen_subcommand_from $commands" -a certify -d "The certificate of a script"
complete -c sdv -n "not __fish_seen_subcommand_from $commands" -a check -d "Check a script with its certificate"
complete -c sdv -n "not __fish_seen_subcommand_from $commands" -a run -d "Run a script beside a simulated card"
complete -c sdv -n "not __fish_seen_subcommand_from $commands" -a batch -d "A script that serves requests"
complete -c sdv -n "not __fish_seen_subcommand_from $commands" -a explain -d "What is known at each statement"
complete -c sdv -n "not __fish_seen_subcommand_from $commands" -a emit -d "The table of a script in C"
complete -c sdv -n "not __fish_seen_subcommand_from $commands" -a audit -d "Where a trace leaves the rules"
complete -c sdv -n "not __fish_seen_subcommand_from $commands" -a drive -d "Run a script over lines"
complete -c sdv -n "not __fish_seen_subcommand_from $commands" -a card -d "Answer requests by a simulated card"
complete -c sdv -n "not __fish_seen_subcommand_from $commands" -a try -d "Run any script beside a simulated card"

complete -c sdv -n "__sdv_at 0 certify check run explain emit drive try" -k -a "(__fish_complete_suffix .sdv)"
complete -c sdv -n "__fish_seen_subcommand_from verify" -k -a "(__fish_complete_suffix .sdv)"
complete -c sdv -n "__fish_seen_subcommand_from verify" -l no-run -d "Look for no run"
complete -c sdv -n "__fish_seen_subcommand_from verify" -l save -r -a "(__fish_complete_directories)" -d "The folder for what runs need"
complete -c sdv -n "__fish_seen_subcommand_from verify" -l allow -x -a "partition write erase boot-enable unreached one-way unread input-shifts loop-once" -d "A kind of findings to leave out"
complete -c sdv -n "__sdv_at 1 check run emit drive explain" -k -a "(__fish_complete_suffix .cert)"
complete -c sdv -n "__sdv_at 2 run" -k -a "(__fish_complete_suffix .card)"
complete -c sdv -n "__sdv_at 3 run" -F -a "new:" -d "An image of zeros: new:BLOCKS"
complete -c sdv -n "__sdv_at 4 run" -F -d "Schedule"
complete -c sdv -n "__sdv_at 1 try" -k -a "(__fish_complete_suffix .card)"
complete -c sdv -n "__sdv_at 2 try" -F -a "new:" -d "An image of zeros: new:BLOCKS"
complete -c sdv -n "__sdv_at 3 try" -F -d "Schedule"
complete -c sdv -n "__sdv_at 1 card; and not __fish_contains_opt describe" -F -a "new:" -d "An image of zeros: new:BLOCKS"
complete -c sdv -n "__sdv_at 2 card" -F -d "Schedule"
complete -c sdv -n "__fish_seen_subcommand_from run drive try" -l in -r -F -d "The blocks that the script gives"
complete -c sdv -n "__fish_seen_subcommand_from run drive try" -l out -r -F -d "The file for the blocks that it receives"
complete -c sdv -n "__fish_seen_subcommand_from run" -l registers -r -F -d "The file for the registers that it receives"
complete -c sdv -n "__fish_seen_subcommand_from drive" -l trace -r -F -d "The file for the trace"
complete -c sdv -n "__fish_seen_subcommand_from drive" -l plain -d "Print commands without their data phases"
complete -c sdv -n "__fish_seen_subcommand_from emit" -l binary -r -F -d "The file for the words of the table as bytes"
complete -c sdv -n "__fish_seen_subcommand_from audit try" -l json -d "Print JSON"
complete -c sdv -n "__fish_seen_subcommand_from audit" -l annotate -d "Print each line of the trace too"
complete -c sdv -n "__fish_seen_subcommand_from audit" -l running -d "The trace begins in a running system"
complete -c sdv -n "__fish_seen_subcommand_from audit" -l script -r -F -d "The script of the trace"
complete -c sdv -n "__fish_seen_subcommand_from audit" -l registers -r -F -d "The bytes of the registers that came"
complete -c sdv -n "__fish_seen_subcommand_from audit" -l svg -d "Print a picture in SVG"
complete -c sdv -n "__fish_seen_subcommand_from explain" -l why -d "Print only why it is refused"
complete -c sdv -n "__fish_seen_subcommand_from explain" -l dot -d "Print the graph for Graphviz"
complete -c sdv -n "__fish_seen_subcommand_from explain" -l no-faults -d "Leave the statements that end in a fault out of the graph"
complete -c sdv -n "__fish_seen_subcommand_from card" -l describe -d "Print the description in words"
complete -c sdv -n "__fish_seen_subcommand_from try" -l each -d "Print how each run with one mishap ends"
complete -c sdv -n "__fish_seen_subcommand_from try" -l card -r -k -a "(__fish_complete_suffix .card)" -d "One more card for these runs"
complete -c sdv -n "__fish_seen_subcommand_from try" -l only -x -a wrong -d "Tell of these runs those alone that are wrong"
complete -c sdv -n "__fish_seen_subcommand_from try" -l lines -d "Print where the host changes its data lines"
complete -c sdv -n "__sdv_at 1 audit" -k -a "(__fish_complete_suffix .trace)"
complete -c sdv -n "__sdv_at 0 card" -k -a "(__fish_complete_suffix .card)"
complete -c sdv -n "__sdv_at 0 batch audit" -a "sd emmc"
