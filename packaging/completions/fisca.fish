# Completion of fisca for fish. Made by bin/manual from what the program's help says.

# Whether the cursor stands behind COMMAND, and where PLACE is given at that operand of it, counted from 0. COMMAND is
# empty before there is one.
function __fisca_at --argument-names command place
    set -l words (commandline -opc)
    set -e words[1]
    set -l found ''
    set -l at 0
    set -l is_value no
    set -l valued 'check --reform' 'calc --reform' 'calc --decimals' 'calc --format' 'test --name' 'test --reform' 'run --reform' 'run --from' 'run --to' 'run --part' 'run --rows' 'run --decimals' 'run --format' 'size --reform' 'list --reform' 'list --format' 'explain --reform' 'explain --depth' 'explain --format' 'axes --keep' 'axes --from' 'axes --to' 'axes --part' 'axes --rows' 'axes --decimals' 'axes --format'
    for word in $words
        if test $is_value = yes
            set is_value no
        else if string match -q -- '-*' $word
            contains -- "$found $word" $valued; and set is_value yes
        else if test -z "$found"
            set found $word
        else
            set at (math $at + 1)
        end
    end
    test "$found" = test -a $at -gt 1; and set at 1
    test "$found" = "$command"; and test -z "$place" -o "$at" = "$place"
end

complete -c fisca -f
complete -c fisca -n '__fisca_at \'\'' -a check -d 'Check the rule files of a folder'
complete -c fisca -n '__fisca_at \'\'' -a calc -d 'Work out values'
complete -c fisca -n '__fisca_at \'\'' -a test -d 'Run tests of rules'
complete -c fisca -n '__fisca_at \'\'' -a run -d 'Write the lines of a grid of situations'
complete -c fisca -n '__fisca_at \'\'' -a size -d 'Count the positions of a grid'
complete -c fisca -n '__fisca_at \'\'' -a list -d 'List the variables of a rule set'
complete -c fisca -n '__fisca_at \'\'' -a explain -d 'Tell how values come about'
complete -c fisca -n '__fisca_at \'\'' -a axes -d 'List the values of axes'
complete -c fisca -n '__fisca_at \'\'' -a help -d 'Print this message or the help of the given subcommand(s)'
complete -c fisca -n '__fisca_at help 0' -a check -d 'Check the rule files of a folder'
complete -c fisca -n '__fisca_at help 0' -a calc -d 'Work out values'
complete -c fisca -n '__fisca_at help 0' -a test -d 'Run tests of rules'
complete -c fisca -n '__fisca_at help 0' -a run -d 'Write the lines of a grid of situations'
complete -c fisca -n '__fisca_at help 0' -a size -d 'Count the positions of a grid'
complete -c fisca -n '__fisca_at help 0' -a list -d 'List the variables of a rule set'
complete -c fisca -n '__fisca_at help 0' -a explain -d 'Tell how values come about'
complete -c fisca -n '__fisca_at help 0' -a axes -d 'List the values of axes'
complete -c fisca -n '__fisca_at help 0' -a help -d 'Print this message or the help of the given subcommand(s)'
complete -c fisca -n '__fisca_at check 0' -a '(__fish_complete_directories)'
complete -c fisca -n '__fisca_at calc 0' -a '(__fish_complete_directories)'
complete -c fisca -n '__fisca_at test 0' -a '(__fish_complete_directories)'
complete -c fisca -n '__fisca_at run 0' -a '(__fish_complete_directories)'
complete -c fisca -n '__fisca_at size 0' -a '(__fish_complete_directories)'
complete -c fisca -n '__fisca_at list 0' -a '(__fish_complete_directories)'
complete -c fisca -n '__fisca_at explain 0' -a '(__fish_complete_directories)'
complete -c fisca -n '__fisca_at calc 1' -F
complete -c fisca -n '__fisca_at test 1' -F
complete -c fisca -n '__fisca_at run 1' -F
complete -c fisca -n '__fisca_at size 1' -F
complete -c fisca -n '__fisca_at explain 1' -F
complete -c fisca -n '__fisca_at \'\'' -s h -l help -d 'Print help'
complete -c fisca -n '__fisca_at \'\'' -s V -l version -d 'Print version'
complete -c fisca -n '__fisca_at check' -l reform -x -a '(__fish_complete_directories)' -d 'Lay the files of a reform\'s folder over those of the rule set'
complete -c fisca -n '__fisca_at check' -s h -l help -d 'Print help'
complete -c fisca -n '__fisca_at calc' -l reform -x -a '(__fish_complete_directories)' -d 'Lay the files of a reform\'s folder over those of the rule set'
complete -c fisca -n '__fisca_at calc' -l header -d 'Write a first line with the names of the cells'
complete -c fisca -n '__fisca_at calc' -l decimals -x -d 'Round numbers to N places, 0 to 18 [default: exact]'
complete -c fisca -n '__fisca_at calc' -l format -x -d 'Write lines as tsv, csv or jsonl'
complete -c fisca -n '__fisca_at calc' -l lines -d 'Take each line of FILE as a file of its own'
complete -c fisca -n '__fisca_at calc' -s h -l help -d 'Print help'
complete -c fisca -n '__fisca_at test' -l name -x -d 'Run the tests whose names have TEXT'
complete -c fisca -n '__fisca_at test' -l reform -x -a '(__fish_complete_directories)' -d 'Lay the files of a reform\'s folder over those of the rule set'
complete -c fisca -n '__fisca_at test' -s h -l help -d 'Print help'
complete -c fisca -n '__fisca_at run' -l reform -x -a '(__fish_complete_directories)' -d 'Lay the files of a reform\'s folder over those of the rule set'
complete -c fisca -n '__fisca_at run' -l from -x -d 'Begin at this position [default: 0]'
complete -c fisca -n '__fisca_at run' -l to -x -d 'End before this position [default: the last one is worked out]'
complete -c fisca -n '__fisca_at run' -l part -x -d 'Take part I of N, such as 1/4, in place of --from and --to'
complete -c fisca -n '__fisca_at run' -l rows -x -d 'End after this many lines [default: no limit]'
complete -c fisca -n '__fisca_at run' -l header -d 'Write a first line with the names of the cells'
complete -c fisca -n '__fisca_at run' -l decimals -x -d 'Round numbers to N places, 0 to 18 [default: exact]'
complete -c fisca -n '__fisca_at run' -l format -x -d 'Write lines as tsv, csv or jsonl'
complete -c fisca -n '__fisca_at run' -l keep-going -d 'Write the word of a fault in place of a value, and go on'
complete -c fisca -n '__fisca_at run' -s h -l help -d 'Print help'
complete -c fisca -n '__fisca_at size' -l reform -x -a '(__fish_complete_directories)' -d 'Lay the files of a reform\'s folder over those of the rule set'
complete -c fisca -n '__fisca_at size' -s h -l help -d 'Print help'
complete -c fisca -n '__fisca_at list' -l reform -x -a '(__fish_complete_directories)' -d 'Lay the files of a reform\'s folder over those of the rule set'
complete -c fisca -n '__fisca_at list' -l header -d 'Write a first line with the names of the cells'
complete -c fisca -n '__fisca_at list' -l format -x -d 'Write lines as tsv, csv or jsonl'
complete -c fisca -n '__fisca_at list' -s h -l help -d 'Print help'
complete -c fisca -n '__fisca_at explain' -l reform -x -a '(__fish_complete_directories)' -d 'Lay the files of a reform\'s folder over those of the rule set'
complete -c fisca -n '__fisca_at explain' -l depth -x -d 'Explain no further than N values below one another'
complete -c fisca -n '__fisca_at explain' -l format -x -d 'Write text or jsonl [default: text]'
complete -c fisca -n '__fisca_at explain' -s h -l help -d 'Print help'
complete -c fisca -n '__fisca_at axes' -l keep -x -d 'List only where an axis meets a condition, such as "salary>=500"'
complete -c fisca -n '__fisca_at axes' -l from -x -d 'Begin at this position [default: 0]'
complete -c fisca -n '__fisca_at axes' -l to -x -d 'End before this position [default: the last one is worked out]'
complete -c fisca -n '__fisca_at axes' -l part -x -d 'Take part I of N, such as 1/4, in place of --from and --to'
complete -c fisca -n '__fisca_at axes' -l rows -x -d 'End after this many lines [default: no limit]'
complete -c fisca -n '__fisca_at axes' -l header -d 'Write a first line with the names of the cells'
complete -c fisca -n '__fisca_at axes' -l decimals -x -d 'Round numbers to N places, 0 to 18 [default: exact]'
complete -c fisca -n '__fisca_at axes' -l format -x -d 'Write lines as tsv, csv or jsonl'
complete -c fisca -n '__fisca_at axes' -s h -l help -d 'Print help'
