#!/usr/bin/env bash
# Times a step of the machine on four compiled programs: nanoseconds by legs (`run`) and by single steps (`step`).
. "$(dirname "$0")/in_copy.sh"
time_program steps 'ns a step' fs_model test_programs rv_machine
