#!/usr/bin/env bash
#SBATCH --job-name=flexpret-sweep
#SBATCH --array=0-99
#SBATCH --time=01:00:00
#SBATCH --requeue
# sbatch array.sh: the same jobs as an array of Slurm, over a folder that all its machines see. Each of the tasks, a hundred
# unless --array asks for other numbers that rise by equal steps, does its share of the jobs, tries one that fails three
# times, and leaves what is done: submitted again, the array does the rest.
set -u
task=${SLURM_ARRAY_TASK_ID:?is set by sbatch}
tasks=${SLURM_ARRAY_TASK_COUNT:?is set by sbatch}
first=${SLURM_ARRAY_TASK_MIN:?is set by sbatch}
last=${SLURM_ARRAY_TASK_MAX:?is set by sbatch}
# The tasks from 0 on: with equal steps each has a number of its own.
span=$((last > first ? last - first : 1))
if [ $(((task - first) * (tasks - 1) % span)) -ne 0 ]; then
    echo "array.sh: the numbers of --array don't rise by equal steps, so jobs would be left out" >&2
    exit 1
fi
share=$(((task - first) * (tasks - 1) / span))
failed=0
while IFS=$'\t' read -r name _; do
    ./job.sh "$name" || ./job.sh "$name" || ./job.sh "$name" || failed=1
done < <(awk -v share="$share" -v tasks="$tasks" 'NR % tasks == share' jobs.tsv)
exit $failed
