#!/usr/bin/env bash
# The replay as C calls it: builds the static library, runs the host in C on the worked example, and holds the library
# to the model in host/model.rs. Ends with status 1 where anything differs.
# What it builds besides the library stands in a folder of its own, outside the checkout.
set -euo pipefail
cd "$(dirname "$0")/.."
built=$(mktemp -d)
trap 'rm -rf "$built"' EXIT

differs() {
    echo "host: $1" >&2
    exit 1
}

# Runs host $1 on the worked example with the lengths behind $3: its status has to be $2, and what it writes goes to
# $built/listing.
list() {
    local host=$1 wanted=$2 status=0
    shift 2
    "$host" "$@" < host/session.script > "$built/listing" 2> "$built/said" || status=$?
    if [ "$status" != "$wanted" ]; then
        cat "$built/said" >&2
        differs "$host $* ended with status $status, not $wanted"
    fi
}

# Whether the last listing is the worked example's first $1 lines.
has_lines() {
    head -n "$1" host/session.listing | cmp - "$built/listing" || differs "the listing is another"
}

(cd crates/replay_c && rt lib > "$built/lib" 2>&1) || { cat "$built/lib" >&2; differs 'the library is not proved'; }
library=crates/replay_c/out/libreplay_c.a

warnings=(-Wall -Wextra -Werror)
gcc -std=c11 "${warnings[@]}" -O2 host/list_script.c "$library" -o "$built/list_script"
g++ -std=c++17 "${warnings[@]}" -fsyntax-only -x c++ host/molefleece.h
list "$built/list_script" 0
has_lines 10
echo 'host: the worked example is listed as it should be'

# The sanitizers see what the host's own code does, and each memcpy, memmove and memset of the library, which go to the
# sanitizer's. They do not see the library's other reads and writes: it is not built with them. Each buffer is a block
# of the heap of its own, just as long as it is said to be.
gcc -std=c11 "${warnings[@]}" -O1 -g -fsanitize=address,undefined -fno-sanitize-recover=all \
    host/list_script.c "$library" -o "$built/checked"
length=$(wc -c < host/session.listing)
list "$built/checked" 0
has_lines 10
list "$built/checked" 0 1536 1537 2047 1999 1601 "$length"
has_lines 10
list "$built/checked" 1 1536 1537 2047 1999 1601 $((length - 1))
has_lines 9
list "$built/checked" 1 0 1 511 512 513 30
has_lines 0
echo 'host: so it is under the sanitizers, on blocks of odd lengths'

rustc -O --edition 2021 -D warnings host/model.rs -L crates/replay_c/out -l static=replay_c -o "$built/model"
folder=()
if [ -d crates/replay_cases/data ]; then
    folder=(crates/replay_cases/data)
fi
"$built/model" "${folder[@]}" > "$built/compared" || differs 'the library and the model differ, or too little came up'
head -n 1 "$built/compared"
tail -n 1 "$built/compared"
