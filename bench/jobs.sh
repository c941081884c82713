#!/usr/bin/env bash
# Times the way from a program to its jobs, for golden runs of 10,000, 100,000 and 1,000,000 instructions: the golden
# run, its log, the jobs, a next touch and the totals.
. "$(dirname "$0")/in_copy.sh"
time_program jobs '^[0-9]+ instructions|^  ' fs_model test_programs golden_trace access_log def_use fault_space
