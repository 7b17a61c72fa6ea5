#!/bin/sh
# Runs a search as a Slurm job array, one shard per job, in a folder that all nodes share:
#
#     array=$(sbatch --parsable --array=1-64 slurm.sh ./race --runs 1000000)
#     sbatch --dependency=afterany:"$array" --wrap './race --merge *.result --junit merged.xml'
#
# Each shard runs as many processes as its job has cores. Its output is in slurm-*.out.
#SBATCH --cpus-per-task=1
#SBATCH --job-name=nicx
set -u

program=$1
shift
"$program" --quiet --jobs "${SLURM_CPUS_PER_TASK:-1}" --shard "$SLURM_ARRAY_TASK_ID/$SLURM_ARRAY_TASK_COUNT" \
    --result "$SLURM_ARRAY_TASK_ID.result" "$@"
status=$?
# The merge reports a failure that was found (1), or something that never ran (3).
[ $status = 1 ] || [ $status = 3 ] || exit $status
