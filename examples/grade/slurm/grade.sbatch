#!/bin/bash
#SBATCH --array=0-39 --cpus-per-task=4 --mem=4G --time=00:10:00
all=(submissions/*.sh)
some=("${all[@]:SLURM_ARRAY_TASK_ID * 250:250}")
[ "${#some[@]}" -eq 0 ] && exit 0
xvsh grade --json --jobs "$SLURM_CPUS_PER_TASK" suite.toml "${some[@]}" \
    > "reports/$SLURM_ARRAY_TASK_ID.json" || [ $? -eq 3 ]
