#!/bin/bash
#SBATCH --array=0-255 --requeue --open-mode=append --output=planar-%A.log
# Counts the connected planar graphs of N vertices as an array of tasks of Slurm: sbatch examples/cluster/slurm.sh N
#
# Send it from the top of the repository. A task whose machine fails is queued once more; `sbatch --array=3,17 .. N` sends those
# again that failed themselves. A part appears in the folder planar-N once it is whole, and is not done again then. At the end:
#   awk -v parts=256 -f examples/cluster/sum.awk planar-N/*.txt
part=planar-$1/$SLURM_ARRAY_TASK_ID
mkdir -p "planar-$1" && { [ -e "$part.txt" ] && exit; }
bash examples/cluster/part.sh "$1" "$SLURM_ARRAY_TASK_ID" "${PARTS:-256}" > "$part.new" && mv "$part.new" "$part.txt"
