# fish completion for fail_export: files and options.

# Whether the three files stand there.
function __fail_export_options
    test (count (commandline -opc)) -gt 3
end

complete -c fail_export -n __fail_export_options -f
complete -c fail_export -n __fail_export_options -l rom -x -d 'where ROM lies, BASE:SIZE'
complete -c fail_export -n __fail_export_options -l ram -x -d 'where RAM lies, BASE:SIZE'
complete -c fail_export -n __fail_export_options -l limit -x -d 'the most instructions of a run'
complete -c fail_export -n __fail_export_options -l pc -d 'flips hit the pc too'
complete -c fail_export -n __fail_export_options -l ram-code -d 'code may stand in RAM'
