#!/usr/bin/env bash
# Steps, times and memory of whole campaigns of four compiled programs by one worker, in both ways of one build: each run by itself, and
# runs that meet as one; and for the latter how often a run is looked at, and how often its state is known. The limits are some ten
# times the run, or twice.
. "$(dirname "$0")/in_copy.sh"
time_program ways 'steps|looks' fs_model fs_outside rv_machine test_programs test_cases golden_trace snapshot_store shared_sites known_states experiment def_use result_keeper campaign host_files
# The memory of a way is the most that a process of its own has held.
for way in by-itself as-one; do
    python3 -c 'import resource, subprocess, sys
subprocess.run(sys.argv[1:], stdout=subprocess.DEVNULL, check=True)
print(sys.argv[2] + ":", resource.getrusage(resource.RUSAGE_CHILDREN).ru_maxrss, "KiB at most")' "$copy/crates/ways/out/ways" "$way"
done
