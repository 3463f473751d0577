#!/usr/bin/env bash
#SBATCH --job-name=reserves
#SBATCH --ntasks=1
#SBATCH --cpus-per-task=1
# sbatch --array=0-99 value_slurm.sh BOOK: the same by Slurm, on the machines of a cluster that share the folder BOOK. Of K tasks
# task k values the products k, k + K, k + 2 K .. in the order of their names.
set -eu
cd "$1"
mkdir -p reserves
products=(products/*.toml)
for ((k = SLURM_ARRAY_TASK_ID - ${SLURM_ARRAY_TASK_MIN:-0}; k < ${#products[@]}; k += SLURM_ARRAY_TASK_COUNT)); do
  name=$(basename "${products[k]}" .toml)
  [ -e "reserves/$name.csv" ] && continue
  "${THIELE_CLI:-thiele_cli}" csv reserves "${products[k]}" 1 >"reserves/$name.part"
  mv "reserves/$name.part" "reserves/$name.csv"
done
