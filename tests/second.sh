#!/usr/bin/env bash
# The second program works every call out anew from document 01, and compares. Arguments go to it: --seconds N, --asks K,
# --seed S. Without any it goes on for 20 seconds. It must end within five minutes more than its --seconds, or within an hour.
# shellcheck source=tests/common.bash
. "$(dirname "$0")/common.bash"
need rustc "Rust 1.70 or newer"
link=$(library) || exit 1
quiet 300 "building the second program" \
    rustc --edition 2021 -O -D warnings -L "$link" tests/second/main.rs -o "$made/second"
[ $# -gt 0 ] || set -- --seconds 20
limit=3600
words=("$@")
for i in "${!words[@]}"; do
    if [ "${words[i]}" = --seconds ] && [[ ${words[i + 1]:-} =~ ^[0-9]+$ ]]; then
        limit=$((10#${words[i + 1]} + 300))
    fi
done
tools/limit "$limit" "second: the second program" "$made/second" "$@"
