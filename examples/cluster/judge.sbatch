#!/usr/bin/env bash
# Judges a log by its memory blocks, some of them per task of a Slurm array job:
#
#     sbatch --wait --array=0-LAST judge.sbatch BLOCKS [OPTION..] LOG
#
# BLOCKS is how many memory blocks a task judges: task I those from I * BLOCKS on. The words after
# it are those of `hotplug_lab judge`. Task I writes its report to blocks-I.txt in the folder of the
# submission, which all nodes have to share. With `--wait`, sbatch ends with the highest status of
# a task: 0 if all blocks are lawful, and 3 if some are not, unless a task failed in another way.
#
#SBATCH --job-name=judge
#SBATCH --output=blocks-%a.txt
#SBATCH --cpus-per-task=1
#SBATCH --mem-per-cpu=2G
set -euo pipefail

blocks=${1:?how many memory blocks a task judges}
shift
first=$((SLURM_ARRAY_TASK_ID * blocks))

hotplug_lab judge --blocks "$first..$((first + blocks))" "$@"
