#!/bin/bash
# A job of submit.sh: a shard of the array, or the merge behind it. sbatch runs a copy of this file, so its first word is the script itself.
# Here is the place for what your cluster wants to be told of each job (#SBATCH --partition=.., --account=.., --time=.., --mem=..).
#SBATCH --job-name=fail_star
#SBATCH --ntasks=1
#SBATCH --requeue
case $1 in
*/shard.sh) exec bash "$1" "$SLURM_ARRAY_TASK_ID" "${@:2}" ;;
*) exec bash "$@" ;;
esac
