#!/usr/bin/env bash
# Runs ./list on stored scripts, and compares what it prints, what it says on standard error and its status with what is
# stored. The listings were made by the model in host/model.rs. Ends with status 1 where anything differs.
set -euo pipefail
cd "$(dirname "$0")/.."
cases=tools/list_cases
room=$(mktemp -d)
trap 'rm -rf "$room"' EXIT
: > "$room/nothing"

differs() {
    echo "list: $1" >&2
    exit 1
}

# Runs ./list on the script $1, and holds it to the status $2, the listing $3, and what $4 has it say on standard error.
list() {
    local script=$1 wanted=$2 listing=$3 said=${4:-$room/nothing} status=0
    ./list < "$script" > "$room/listing" 2> "$room/said" || status=$?
    cmp "$listing" "$room/listing" || differs "$script has another listing"
    diff "$said" "$room/said" >&2 || differs "$script has something else said of it"
    [ "$status" = "$wanted" ] || differs "$script ends with status $status, not $wanted"
}

# Building the program says so on standard error.
./list < /dev/null > /dev/null 2> "$room/said" || { cat "$room/said" >&2; differs 'the program is not built'; }

list host/session.script 0 host/session.listing
# More than the 8,192 bytes that are read, which end within a line that can't be read.
list $cases/long_input.script 0 $cases/long_input.listing
# A listing that fills its buffer, and one that has a byte more.
list crates/replay_cases/data/listing_of_8192_bytes 0 $cases/listing_of_8192_bytes.listing
list crates/replay_cases/data/listing_of_8193_bytes 1 $cases/listing_of_8193_bytes.listing $cases/listing_of_8193_bytes.said
# Memories of 8,192 bytes have 16 slots: room for 16 groups, and 56 pages, but not for 17.
list $cases/all_slots.script 0 $cases/all_slots.listing
# A folder can't be read.
list $cases 1 "$room/nothing" $cases/no_input.said
# Nothing can be written to a full device.
status=0
./list < host/session.script > /dev/full 2> "$room/said" || status=$?
diff $cases/no_output.said "$room/said" >&2 || differs 'a full device has something else said of it'
[ "$status" = 1 ] || differs "a full device ends with status $status, not 1"
echo 'list: seven cases are listed as they should be'
