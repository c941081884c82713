# fish completion for fail_debug: the image and options.

# Whether the image is there, and this many words after it.
function __fail_debug_image
    test (count (commandline -opc)) -ge (math 2 + $argv[1])
end

complete -c fail_debug -n '__fail_debug_image 0' -f
complete -c fail_debug -n '__fail_debug_image 3' -l rom -x -d 'where ROM lies, BASE:SIZE'
complete -c fail_debug -n '__fail_debug_image 3' -l ram -x -d 'where RAM lies, BASE:SIZE'
complete -c fail_debug -n '__fail_debug_image 3' -l limit -x -d 'the most instructions of a run'
complete -c fail_debug -n '__fail_debug_image 3' -l pc -d 'flips hit the pc too'
complete -c fail_debug -n '__fail_debug_image 3' -l ram-code -d 'code may stand in RAM'
