#!/usr/bin/env bash
# Refuses each allocation in turn while records of each kind are read, prepared, shown and applied;
# or, where the program dv_store_refusals is named, while a folder is opened and a store writes
# commands of each kind.
#
# Usage: bench/refused_records.sh [dv_refusals | dv_store_refusals]
#
# The program makes as many allocations before its work as its input has bytes, so that one and the
# same refusal meets another allocation in each run. Where memory is refused before a record or a
# group is ready, the mailbox is as before, and behind that nothing takes memory: each run is to say
# that all is shown, applied or written as it has to be.
set -euo pipefail
cd "$(dirname "$0")/../crates/${1:-dv_refusals}"
folder=$(mktemp -d)
trap 'rm -rf "$folder"' EXIT

: > "$folder/0"
count=$(rt try --steps 1000000000 --fail-alloc 1000000 --cases "$folder" 2>&1 | sed -n 's/^allocations: //p' | head -1)
for n in $(seq 1 $((count - 1))); do
    head -c "$n" /dev/zero > "$folder/$n"
done
rt try --steps 1 --fail-alloc "$count" --cases "$folder" > "$folder.out" 2>&1 || true
passed=$(grep -c "^case=.* status=0 " "$folder.out" || true)
refused=$(grep -c " 1 refused$" "$folder.out" || true)
rm -f "$folder.out"
echo "$count allocations, each refused in one run: $passed runs passed, $refused met it at a record or a command"
[ "$passed" = "$count" ]
