#!/usr/bin/env bash
# Explores a scenario in parts, one per task of a Slurm array job:
#
#     sbatch --array=1-PARTS search.sbatch PARTS [OPTION..] SCENARIO
#
# PARTS is how many parts there are. The words after it are those of `hotplug_lab explore`. Task I
# writes part-I.json in the folder of the submission, which all nodes have to share, and a fault to
# part-I.log. A task that failed leaves no part-I.json. It runs again by `--array=I` and the same
# words. A cluster takes arrays of up to 1,000 tasks, if its MaxArraySize is the usual one.
#
# A second job can add the parts up. It starts when all of them are there, and is dropped if a task
# failed:
#
#     job=$(sbatch --parsable --array=1-8 search.sbatch 8 --setup 3 last-frame.json)
#     sbatch --wait --dependency=afterok:$job --kill-on-invalid-dep=yes --output=ends.txt \
#         --wrap 'hotplug_lab sum part-*.json'
#
#SBATCH --job-name=search
#SBATCH --output=part-%a.log
#SBATCH --cpus-per-task=1
#SBATCH --mem-per-cpu=2G
set -euo pipefail

parts=${1:?how many parts there are}
shift
part=part-$SLURM_ARRAY_TASK_ID.json

hotplug_lab explore --part "$SLURM_ARRAY_TASK_ID/$parts" "$@" >"$part.unfinished"
mv "$part.unfinished" "$part"
