#!/bin/sh
#SBATCH --job-name=dgc
#SBATCH --requeue
#SBATCH --open-mode=append
#SBATCH --ntasks=1
# One task of a job array makes one piece: task.sh PIECES.PY FOLDER OFFSET
exec python3 -E -S "$1" "$2" "$(($3 + SLURM_ARRAY_TASK_ID))"
