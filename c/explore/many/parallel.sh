#!/bin/sh
# Shares a search among machines with GNU parallel over ssh, and merges the results:
#
#     parallel.sh HOSTS SHARDS PROGRAM [WORDS ..]
#
# HOSTS is a file for `parallel --sshloginfile` with one line per machine: `2/user@host` runs two shards there.
# The program is copied to each machine and runs there with WORDS, such as `--runs 1000000`. If a machine fails, another
# one runs its shard. The results stay in this folder as SHARD.result. The exit status is the merge's.
set -eu

[ $# -ge 3 ] || { sed -n 's/^# \{0,1\}//; 2,10p' "$0" >&2; exit 2; }
hosts=$1 shards=$2 program=$3
shift 3
name=$(basename "$program")
from=$(cd "$(dirname "$program")" && pwd)

# A search that found a failure (1), or something that never ran (3), has completed its shard.
seq "$shards" | parallel --sshloginfile "$hosts" --basefile "$from/./$name" --return '{}.result' --cleanup \
    --workdir "nicx-search-$$" --retries 3 --joblog shards.log \
    "./$name --quiet $* --shard {}/$shards --result {}.result || [ \$? = 1 ] || [ \$? = 3 ]"

results=$(seq "$shards" | sed 's/$/.result/')
# shellcheck disable=SC2086
exec "$program" --merge $results --junit merged.xml
