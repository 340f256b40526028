#!/bin/sh
# Makes up COUNT calls by SEED and holds PROGRAM's answers against the crate's and the definition's.
# usage: ./compare.sh FOLDER PROGRAM SEED COUNT
# FOLDER is that of the published crate (see mount.sh). PROGRAM reads a script on standard input and prints answers on
# standard output; it may be a command with words behind it. Ends with status 0 where no difference but a listed one is.
set -eu
usage="usage: compare.sh FOLDER PROGRAM SEED COUNT"
folder=${1:?$usage} program=${2:?$usage} seed=${3:?$usage} count=${4:?$usage}
here=$(cd "$(dirname "$0")" && pwd)
"$here/mount.sh" "$folder"
(cd "$here" && cargo build --offline --release -q -j 1)
oracle=$here/target/release/oracle
work=$here/target/compare
mkdir -p "$work"
"$oracle" make-up "$seed" "$count" > "$work/script.txt"
echo "seed $seed, $count calls, answered by: $program"
judged=0
# $program is split into its words
{ status=0; $program < "$work/script.txt" || status=$?; echo $status > "$work/status"; } |
  "$oracle" judge "$work/script.txt" || judged=$?
status=$(cat "$work/status")
if [ "$status" != 0 ]; then echo "the program ended with status $status"; exit 1; fi
exit $judged
