#!/bin/bash
#SBATCH --job-name=check-all
#SBATCH --array=1-16
#SBATCH --cpus-per-task=4
#SBATCH --output=check-all-%a.txt
#
# Checks many files by a job array of Slurm: each task checks its shard of the list, and leaves its table in check-all-N.txt. The
# folders have to be seen by all nodes under the same names, and check-all and the checkers have to be on the PATH. At the end one
# collects the verdicts, whatever became of the tasks: what no task has checked counts as not verified.
#
#     sbatch --wait check-all.sbatch runs
#     check-all --merge -j8 runs
#
# The words after check-all.sbatch are those of check-all; --merge wants the same ones. What is verified isn't checked again, so
# after tasks that were killed the same two lines do the rest. Other numbers of tasks and processors come before the name, as in
# `sbatch --wait --array=1-100 --cpus-per-task=8 check-all.sbatch runs`; tasks are numbered from 1 on.
exec check-all -j "$SLURM_CPUS_PER_TASK" --shard "$SLURM_ARRAY_TASK_ID/$SLURM_ARRAY_TASK_COUNT" "$@"
