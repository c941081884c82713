#!/usr/bin/env bash
# Times whole campaigns of two compiled programs, from the case to the totals, with the campaign file in memory, and the bare machine
# for as many steps: nanoseconds a step, and their ratio.
. "$(dirname "$0")/in_copy.sh"
time_program campaigns 'ns a step' fs_model fs_outside test_programs test_cases rv_machine golden_trace snapshot_store experiment def_use result_keeper campaign
