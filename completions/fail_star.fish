# fish completion for fail_star: commands, files, options, and their fixed words.

function __fail_star_first
    test (count (commandline -opc)) -eq 1
end

# Whether the command is one of these, and its files, so many, stand behind it.
function __fail_star_options
    set -l words (commandline -opc)
    test (count $words) -gt 1; and contains -- $words[2] $argv[2..-1]; and test (count $words) -ge (math 2 + $argv[1])
end

complete -c fail_star -n __fail_star_first -f
complete -c fail_star -n __fail_star_first -a run -d 'run the campaign, or go on with it'
complete -c fail_star -n __fail_star_first -a report -d 'print what a campaign file keeps'
complete -c fail_star -n __fail_star_first -a audit -d 'run the jobs of a campaign file again'
complete -c fail_star -n __fail_star_first -a brute -d 'the same counts by a run of each site'
complete -c fail_star -n __fail_star_first -a plan -d 'how many jobs stand for the sites'
complete -c fail_star -n __fail_star_first -a trace -d 'the run without a fault'
complete -c fail_star -n __fail_star_first -a sample -d 'the counts of sites that a seed draws'
complete -c fail_star -n __fail_star_first -a merge -d 'put the outcomes of another campaign file into one'
complete -c fail_star -n __fail_star_first -a symbols -d 'what a campaign file keeps, by functions and variables'
complete -c fail_star -n __fail_star_first -a demo -d 'the campaign of a generated program'

for files in '2 run report audit symbols' '3 merge' '1 brute plan trace sample'
    set -l given "__fail_star_options $files"
    complete -c fail_star -n $given -f
    complete -c fail_star -n $given -l rom -x -d 'where ROM lies, BASE:SIZE'
    complete -c fail_star -n $given -l ram -x -d 'where RAM lies, BASE:SIZE'
    complete -c fail_star -n $given -l limit -x -d 'the most instructions of a run'
    complete -c fail_star -n $given -l ram-code -d 'code may stand in RAM'
end
for files in '2 run report audit symbols' '3 merge' '1 brute plan sample'
    complete -c fail_star -n "__fail_star_options $files" -l pc -d 'flips hit the pc too'
end
set -l given '__fail_star_options 2 run'
complete -c fail_star -n $given -l workers -x -d 'the number of threads'
complete -c fail_star -n $given -l page -x -d 'the most jobs that are kept at once'
complete -c fail_star -n $given -l stop-after -x -d 'the most jobs that are run'
complete -c fail_star -n $given -l shard -x -d 'the part i/n of the jobs'
complete -c fail_star -n $given -l fresh -d 'begin the campaign file anew'
complete -c fail_star -n $given -l format -x -a 'text json'
set -l given '__fail_star_options 3 merge'
complete -c fail_star -n $given -l page -x -d 'the most jobs that are kept at once'
complete -c fail_star -n $given -l format -x -a 'text json'
complete -c fail_star -n '__fail_star_options 1 brute' -l format -x -a 'text json'
complete -c fail_star -n '__fail_star_options 1 plan' -l format -x -a 'text csv'
complete -c fail_star -n '__fail_star_options 2 report' -l format -x -a 'text json csv'
set -l given '__fail_star_options 1 sample'
complete -c fail_star -n $given -l count -x -d 'how many sites are drawn'
complete -c fail_star -n $given -l seed -x -d 'the seed'
complete -c fail_star -n $given -l live -d 'draw of the live sites alone'
complete -c fail_star -n '__fail_star_options 0 demo' -f
complete -c fail_star -n '__fail_star_options 0 demo' -l seed -x -d 'the seed'
complete -c fail_star -n '__fail_star_options 0 demo' -l blocks -x -d 'the number of blocks'
