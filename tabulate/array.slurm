#!/bin/bash
# A job array for Slurm: each task takes one part of a list. Begin at the top of the repository; what the tasks write goes to `out/parts`:
#
#   tabulate/kh-tabulate cut --links 1000 out/list.tsv out/parts
#   sbatch --array=0-$(($(ls out/parts/part-?????? | wc -l) - 1)) tabulate/array.slurm
#   tabulate/kh-tabulate store out/results.db out/parts/*.jsonl        (when all have ended)
#
# A task that was stopped, requeued or killed goes on within its part when it is started again, as Slurm does where a node fails; all parts
# may be started again too, by the same words. Fields are those of the variable FIELDS, as `--fields` takes them, else 2 alone; the programs
# are those of SCAN and KH, else the ones that ./build makes, and PROGRAM names the one that is asked, scan or kh.
#SBATCH --job-name=kh
#SBATCH --cpus-per-task=1
#SBATCH --mem=1G
#SBATCH --time=04:00:00
#SBATCH --requeue
#SBATCH --open-mode=append
#SBATCH --output=out/parts/task-%a.log
part=$(printf 'out/parts/part-%06d' "$SLURM_ARRAY_TASK_ID")
exec tabulate/kh-tabulate work --fields "${FIELDS:-2}" ${SCAN:+--scan "$SCAN"} ${KH:+--kh "$KH"} ${PROGRAM:+--program "$PROGRAM"} \
    "$part" "$part.jsonl"
