# fish completion for fail_replay: views, the image and options.

# Whether nothing stands there yet.
function __fail_replay_first
    test (count (commandline -opc)) -eq 1
end

# Whether the image stands there, and so many words behind it.
function __fail_replay_image
    set -l words (commandline -opc)
    set -l image 2
    test (count $words) -gt 1; and contains -- $words[2] --whole --brief; and set image 3
    test (count $words) -ge (math $image + $argv[1])
end

complete -c fail_replay -n __fail_replay_first -l whole -d 'the instructions before the flip too'
complete -c fail_replay -n __fail_replay_first -l brief -d 'no instructions'
complete -c fail_replay -n '__fail_replay_image 0' -f
complete -c fail_replay -n '__fail_replay_image 3' -l rom -x -d 'where ROM lies, BASE:SIZE'
complete -c fail_replay -n '__fail_replay_image 3' -l ram -x -d 'where RAM lies, BASE:SIZE'
complete -c fail_replay -n '__fail_replay_image 3' -l limit -x -d 'the most instructions of a run'
complete -c fail_replay -n '__fail_replay_image 3' -l pc -d 'flips hit the pc too'
complete -c fail_replay -n '__fail_replay_image 3' -l ram-code -d 'code may stand in RAM'
