#!/usr/bin/env bash
# Times jobs over four compiled programs, and the bare machine for as many steps: nanoseconds a step, and their ratio.
. "$(dirname "$0")/in_copy.sh"
time_program experiments 'ns a step' fs_model test_programs rv_machine golden_trace snapshot_store experiment
