#!/usr/bin/env bash
# Tries the example hosts on wrong uses and on output that fails: each says what is wrong on standard error, prints nothing and ends with status 1.
# The last line counts the trials, `N passed, M failed`. Use: tests/hosts.sh, after `make examples` and the shared library.
set -uo pipefail
cd "$(dirname "$0")/../examples/harbour" || exit
room=$(mktemp -d)
trap 'rm -rf "$room"' EXIT
built=../../target/examples
export PYTHONPATH=../../python FORKHEMIT_LIBRARY=../../target/shared/libforkhemit.so
passed=0
failed=0

# The command ends with status 1, prints nothing and says what is wrong, in one line with these words and no trace of a program.
wrong() { # WORDS COMMAND..
    local words=$1 status
    shift
    "$@" >"$room/printed" 2>"$room/said"
    status=$?
    if [ "$status" -eq 1 ] && [ ! -s "$room/printed" ] && [ "$(wc -l <"$room/said")" -eq 1 ] && grep -qF -- "$words" "$room/said"; then
        passed=$((passed + 1))
    else
        failed=$((failed + 1))
        printf 'FAILED: status %s, prints %s bytes:' "$status" "$(wc -c <"$room/printed")"
        printf ' %q' "$@"
        printf '\n'
        sed 's/^/    /' "$room/said"
    fi
}

# With nothing wrong the command ends well and prints something; with a full disk for its output it does not.
full() { # COMMAND..
    if "$@" >"$room/printed" 2>"$room/said" && [ -s "$room/printed" ]; then passed=$((passed + 1)); else
        failed=$((failed + 1))
        echo "FAILED: $* ends badly or prints nothing"
    fi
    # `wrong` takes the output into a file of its own, so this one is the shell's
    wrong '' bash -c '"$@" >/dev/full' full "$@"
}

texts=(left.cnf right.cnf public.cnf)
nines=99999999999999999999
numbers=('' abc -5 +5 ' 5' '5 ' 5x 0x10 5.0 1e3 ٣ 18446744073709551616 "$nines$nines$nines$nines$nines" "$(printf '%0120d' 5)")
turns=turns/by-turns.qdimacs
proof=(left.cnf unsatisfiable/right.cnf public.cnf unsatisfiable/proof.drat)
for host in "$built/host-c" "$built/host-rust" 'python3 -B ../host/host.py'; do
    read -ra command <<<"$host"
    for number in "${numbers[@]}"; do wrong 'refused 8' "${command[@]}" "${texts[@]}" "$number"; done
    wrong 'use: ' "${command[@]}"
    wrong 'use: ' "${command[@]}" "${texts[@]}"
    wrong 'use: ' "${command[@]}" "${texts[@]}" 5 5
    full "${command[@]}" "${texts[@]}" 5
    full "${command[@]}" "${texts[@]}" 18446744073709551615
    full "${command[@]}" "${texts[@]}" 007
done
for number in "${numbers[@]}"; do
    wrong STEPS "$built/late-c" left.cnf late/right.cnf public.cnf "$number" right 30 1
    wrong ROW "$built/late-c" left.cnf late/right.cnf public.cnf 3 right "$number" 1
done
for literal in '' - abc 1x --1 +1 99999999999999999999; do wrong LITERAL "$built/late-c" left.cnf late/right.cnf public.cnf 3 right 30 "$literal"; done
for literal in 0 -0 33 -33; do wrong 'no literal' "$built/late-c" left.cnf late/right.cnf public.cnf 3 right 30 "$literal"; done
wrong STATION "$built/late-c" left.cnf late/right.cnf public.cnf 3 both 30 1
read -ra story <late/crewed
full "$built/late-c" left.cnf late/right.cnf public.cnf "${story[@]}"
wrong 'use: ' "$built/late-c" left.cnf
full "$built/proof-c" "${proof[@]}"
wrong 'use: ' "$built/proof-c" "${texts[@]}"
full "$built/turns-c" $turns
wrong 'use: ' "$built/turns-c"
for number in "${numbers[@]}"; do
    wrong BUDGET "$built/page-c" "${texts[@]}" "$number" 4 3
    wrong PILOTS "$built/page-c" "${texts[@]}" 1000 "$number" 3
    wrong WATCHES "$built/page-c" "${texts[@]}" 1000 4 "$number"
done
full "$built/page-c" "${texts[@]}" 1000 4 3
wrong 'use: ' "$built/page-c" "${texts[@]}" 1000
echo "$passed passed, $failed failed"
[ "$failed" -eq 0 ] && [ "$passed" -gt 0 ]
