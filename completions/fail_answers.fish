# fish completion for fail_answers: files, options, and their fixed words.

# Whether the two files stand there.
function __fail_answers_options
    test (count (commandline -opc)) -gt 2
end

complete -c fail_answers -n __fail_answers_options -f
complete -c fail_answers -n __fail_answers_options -l outcome -x -a 'silent detected illegal address misaligned timeout no-effect' -d 'the outcomes whose jobs are run'
complete -c fail_answers -n __fail_answers_options -l workers -x -d 'how many run jobs at the same time'
complete -c fail_answers -n __fail_answers_options -l rom -x -d 'where ROM lies, BASE:SIZE'
complete -c fail_answers -n __fail_answers_options -l ram -x -d 'where RAM lies, BASE:SIZE'
complete -c fail_answers -n __fail_answers_options -l limit -x -d 'the most instructions of a run'
complete -c fail_answers -n __fail_answers_options -l pc -d 'flips hit the pc too'
complete -c fail_answers -n __fail_answers_options -l ram-code -d 'code may stand in RAM'
