#!/usr/bin/env bash
# How long each crate's check takes, from nothing, and what a program's or the library's compilation takes: crate by crate in a copy of the
# repository, each after those that it uses. A line a crate: its name, seconds gone by, and seconds of processor time. Use: tests/checktime.sh
set -uo pipefail
cd "$(dirname "$0")/.." || exit
room=$(mktemp -d)
trap 'rm -rf "$room"' EXIT
tar -c --exclude='crates/*/out' .ci/compile crates crates.txt | tar -x -C "$room"
cd "$room" || exit
TIMEFORMAT='%1R %1U'
# `rt check` would begin with what checks in other copies of the repository kept
export AFTER_CI=1
for name in $(sed -n 's/^\([a-z0-9_]*\)\( staticlib\)\?:.*/\1/p' crates.txt); do
    if ! { time .ci/compile "$name" >log 2>&1; } 2>spent; then
        cat log
        exit 1
    fi
    read -r gone processor <spent
    printf '%-13s %8s %8s\n' "$name" "$gone" "$processor"
done | awk '{ print; gone += $2; processor += $3 } END { printf "%-13s %8.1f %8.1f\n", "all", gone, processor }'
