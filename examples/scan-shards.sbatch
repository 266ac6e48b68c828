#!/bin/sh
# Scans folders of pages as a job array of Slurm: each task scans one shard into a store of its own, shard-K.db in the
# current folder. docs/COLLECTIONS.md shows the lines that submit it and merge the shards.
#
# There are 64 shards, and the array has a task for each. For another number, give both:
#
#     SHARDS=16 sbatch --array=0-15 scan-shards.sbatch FOLDER..
#
# A task that is started again continues where it was stopped. To start only some of them, give their numbers, such as
# --array=3,7; the number of shards stays.
#
#SBATCH --job-name=naplps-shards
#SBATCH --array=0-63
#SBATCH --ntasks=1
#SBATCH --cpus-per-task=2
#SBATCH --mem=1G
#SBATCH --time=12:00:00
#SBATCH --requeue
#SBATCH --open-mode=append
#SBATCH --output=shard-%a.log

store=shard-$SLURM_ARRAY_TASK_ID.db
naplps-pages scan "$@" --shard "$SLURM_ARRAY_TASK_ID/${SHARDS:-64}" -o "$store" --jobs "${SLURM_CPUS_PER_TASK:-1}"
status=$?
# With 3 something couldn't be read or asked about, as the log tells. If the scan came to its end, the shard is finished.
[ "$status" -eq 3 ] && naplps-pages files "$store" 2> /dev/null | grep -q '^scan: .* ended ' && status=0
exit "$status"
