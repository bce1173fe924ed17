#!/usr/bin/env bash
#SBATCH --job-name=bhexodana
#SBATCH --cpus-per-task=1
# Converts an ensemble by a job array of Slurm, each task a part of the names: sbatch --array=0-3 examples/many/array.sbatch DECK OUTDIR NAMES
# NAMES is a file of the reels' names, one to a line. It is called from the checkout, or with the launcher's name in BHEXODANA; a fresh clone is built by the first task, and the others
# wait. When all tasks are done, `./bhexodana compare OUTDIR` compares all members.
set -u
[[ $# -eq 3 ]] || { sed -n 4,6p "$0" >&2; exit 2; }
part=$((SLURM_ARRAY_TASK_ID - SLURM_ARRAY_TASK_MIN))
awk -v parts="$SLURM_ARRAY_TASK_COUNT" -v part="$part" 'NR % parts == part' "$3" |
    "${BHEXODANA:-./bhexodana}" convert-all -j "${SLURM_CPUS_PER_TASK:-1}" --names - "$1" "$2"
