#!/usr/bin/env bash
# Tries examples/backend: drills on the example and on random tables of many sizes give the pair program's answer, the circuit's text is the circuit
# program's, and a drill fails where the circuit, a station's bits or the answer are damaged. The last line counts, `N passed, M failed`.
# Use: tests/drill.sh, after `make examples` and `make`.
set -uo pipefail
cd "$(dirname "$0")/.." || exit
tree=$PWD
room=$(mktemp -d)
trap 'rm -rf "$room"' EXIT
backend=$tree/target/examples/backend
pair=$tree/target/static/pair
passed=0
failed=0

trial() { # WHAT COMMAND..
    local what=$1
    shift
    if "$@" >"$room/log" 2>&1; then passed=$((passed + 1)); else
        echo "FAILED: $what"
        sed 's/^/    /' "$room/log"
        failed=$((failed + 1))
    fi
}

# Random tables in a folder: rows of up to three literals, as many as asked for, and a budget.
tables() { # FOLDER SEED N LEFT RIGHT PUBLIC BUDGET
    mkdir -p "$1"
    python3 - "$@" <<'END'
import random, sys
folder, seed, n, *counts, budget = sys.argv[1], *map(int, sys.argv[2:])
chance = random.Random(seed)
for name, count in zip(("left", "right", "public"), counts):
    with open(f"{folder}/{name}.cnf", "w") as file:
        print(f"p cnf {n} {count}", file=file)
        for _ in range(count):
            print(*(chance.choice((1, -1)) * v for v in chance.sample(range(1, n + 1), chance.randint(1, min(n, 3)))), 0, file=file)
with open(f"{folder}/budget", "w") as file:
    print(budget, file=file)
END
}

drill() { # BACKEND FILES
    sh examples/backend/drill.sh "$1" "$pair" "$2" "$room/drill"
}

# The drill ends badly, and says where two files differ.
fails() { ! drill "$@" >"$room/said" 2>&1 && grep -q ' differ: ' "$room/said"; }

# ---- drills

answered() { drill "$backend" "$tree/examples/harbour" | tail -n 3 | diff - examples/harbour/answer; }
trial 'the example' answered
alone() { diff <(cd "$room/drill" && ls left right) <(printf '%s\n' left: left.bits left.cnf left.columns '' right: right.bits right.cnf right.columns); }
trial 'in which no station has a file of the other' alone
seed=0
for size in '1 1 1 0 5' '1 2 1 3 0' '2 1 3 0 1' '3 4 4 0 50' '3 2 5 4 50' '5 9 9 9 50' '6 33 1 0 3' '8 10 12 6 40' '9 20 34 0 9' '12 3 3 3 25' '32 4 5 6 12'; do
    seed=$((seed + 1))
    read -ra numbers <<<"$size"
    tables "$room/$seed" $seed "${numbers[@]}"
    trial "tables of $size" drill "$backend" "$room/$seed"
done

# The largest size, one repeat: Python takes its time over 289,734 gates.
largest() {
    local files=$room/largest
    tables "$files" 99 32 128 128 128 1
    cd "$files" || return
    "$backend" circuit 32 128 128 128 >circuit.txt && "$backend" station 32 left.cnf >left.bits && "$backend" columns 32 right.cnf >right.bits &&
        "$backend" public 32 public.cnf >public.bits && "$backend" fresh 32 >fresh.bits &&
        python3 "$tree/examples/backend/evaluate.py" circuit.txt 1 all left.bits right.bits public.bits fresh.bits >repeats &&
        "$backend" expected left.cnf right.cnf public.cnf 1 | cmp - repeats && cd "$tree"
}
trial 'the largest tables' largest

# ---- the circuit's text

for size in '1 1 1 0' '2 3 1 2' '4 5 5 2' '7 1 1 0'; do
    # shellcheck disable=SC2086
    same() { cmp <("$backend" circuit $size) <(echo "$size" | target/static/circuit); }
    trial "the circuit text of $size" same
done

# what docs/BACKENDS.md says of the example's circuit, line by line
surveyed() {
    "$backend" circuit 12 10 2 12 >"$room/circuit.txt" && python3 examples/backend/survey.py "$room/circuit.txt" >"$room/survey" && [ -s "$room/survey" ] &&
        while read -r line; do grep -qxF "    $line" docs/BACKENDS.md || { echo "not on the page: $line" && return 1; }; done <"$room/survey"
}
trial 'docs/BACKENDS.md counts its gates' surveyed
# three AND gates a row with a constant operand, and b + 3 more for an odd number of rows, b being the number of binary digits of n - 1
for size in '1 1 1 0 6' '1 1 1 1 12' '3 2 2 1 20' '4 5 5 2 36' '7 3 3 3 33' '20 40 40 11 281'; do
    # shellcheck disable=SC2086
    constant() { grep -qx "${size##* } AND gates with a constant operand" <(python3 examples/backend/survey.py <("$backend" circuit ${size% *})); }
    trial "constant operands of $size" constant
done

# ---- what must fail

wrapper() { # COMMAND FILTER: a program that does what the kit does, but for one use, whose output goes through a filter
    printf '#!/bin/sh\nif [ "$1" = %s ]; then "%s" "$@" | %s; else exec "%s" "$@"; fi\n' "$1" "$backend" "$2" "$backend" >"$room/wrapper"
    chmod +x "$room/wrapper"
}
# gates of another kind or of another wire: some of them, since 17 repeats of one case do not show each
damaged() { # AWK
    wrapper circuit "awk '$1'"
    fails "$room/wrapper" "$tree/examples/harbour"
}
trial 'each tenth AND gate an XOR gate' damaged '/AND/ && ++count % 10 == 0 { sub(/AND/, "XOR") } { print }'
trial 'each tenth XOR gate an AND gate' damaged '/XOR/ && ++count % 10 == 0 { sub(/XOR/, "AND") } { print }'
trial 'each tenth INV gate of another wire' damaged '/INV/ && ++count % 10 == 0 { $3 = $3 - 1 } { print }'
flipped() { # COMMAND
    wrapper "$1" "sed 's/^0/x/; s/^1/0/; s/^x/1/'"
    fails "$room/wrapper" "$tree/examples/harbour"
}
trial "a station's first bit another one" flipped station
trial 'by columns' flipped columns
trial "the public rows' first bit" flipped public
trial "the fresh state's first bit" flipped fresh
wrapper answer 'sed "s/^c steps 17/c steps 18/"'
trial 'another count in the answer' fails "$room/wrapper" "$tree/examples/harbour"

# ---- wrong uses of the kit

wrong() { # WORDS COMMAND..
    local words=$1
    shift
    "$@" >"$room/printed" 2>"$room/said" </dev/null
    [ $? -eq 1 ] && [ ! -s "$room/printed" ] && grep -qF -- "$words" "$room/said"
}
harbour=$tree/examples/harbour
trial 'no use' wrong 'use: ' "$backend"
trial 'an unknown one' wrong 'use: ' "$backend" other 1 2
trial 'a size that is none' wrong 'refused 8' "$backend" circuit 4 x 5 2
trial 'a size that is too large' wrong 'refused 1' "$backend" circuit 4294967300 5 5 2
trial 'a file of another n' wrong 'refused 6' "$backend" station 11 "$harbour/left.cnf"
trial 'n as a number of 32 bits' wrong 'refused 1' "$backend" station 4294967308 "$harbour/left.cnf"
trial 'no file' wrong 'refused 5' "$backend" station 12 none.cnf
trial 'no state' wrong 'refused 10' "$backend" answer 12 17
trial 'a whole budget that is too large' wrong 'refused 23' "$backend" whole "$harbour/left.cnf" "$harbour/right.cnf" "$harbour/public.cnf" 65536
filled() { ! "$backend" circuit 12 10 2 12 2>"$room/said" >/dev/full && [ -s "$room/said" ]; }
trial 'output that fails' filled
echo "$passed passed, $failed failed"
[ "$failed" -eq 0 ] && [ "$passed" -gt 0 ]
