#!/bin/bash
# An array of jobs for Slurm, one a program of the list in programs.txt, at most 64 at a time:
#
#     sbatch --array=1-"$(wc -l < programs.txt)"%64 slurm.sh
#
# A job runs one program; its report stands beside the program, and the job fails where the run did.
#SBATCH --job-name=smemu
#SBATCH --cpus-per-task=1
#SBATCH --mem=512M
#SBATCH --time=00:10:00
set -eu
program=$(sed -n "${SLURM_ARRAY_TASK_ID}p" programs.txt)
if [ -z "$program" ]; then
    echo "slurm.sh: line $SLURM_ARRAY_TASK_ID of programs.txt has no program" >&2
    exit 2
fi
# a run that fails says why, and leaves no file
trap 'rm -f "$program.part"' EXIT
if ! "${SMEMU:-smemu}" run "$program" > "$program.part"; then
    echo "slurm.sh: $program: $(head -n 1 "$program.part")" >&2
    exit 1
fi
mv "$program.part" "${program%.elf}.report"
