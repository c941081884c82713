# fish completion for fail_window: files, options, and their fixed words.

# Whether the two files stand there.
function __fail_window_options
    test (count (commandline -opc)) -gt 2
end

complete -c fail_window -n __fail_window_options -f
complete -c fail_window -n __fail_window_options -l cycles -x -d 'these instructions of the run, A..B'
complete -c fail_window -n __fail_window_options -l code -x -d 'instructions at these addresses, LOW..HIGH'
complete -c fail_window -n __fail_window_options -l function -x -d 'instructions of this function'
complete -c fail_window -n __fail_window_options -l rom -x -d 'where ROM lies, BASE:SIZE'
complete -c fail_window -n __fail_window_options -l ram -x -d 'where RAM lies, BASE:SIZE'
complete -c fail_window -n __fail_window_options -l limit -x -d 'the most instructions of a run'
complete -c fail_window -n __fail_window_options -l workers -x -d 'how many run jobs at the same time'
complete -c fail_window -n __fail_window_options -l page -x -d 'jobs that are kept at once'
complete -c fail_window -n __fail_window_options -l stop-after -x -d 'the most jobs of this call'
complete -c fail_window -n __fail_window_options -l pc -d 'flips hit the pc too'
complete -c fail_window -n __fail_window_options -l ram-code -d 'code may stand in RAM'
complete -c fail_window -n __fail_window_options -l format -x -a 'text json' -d 'the format of the counts'
