#!/bin/sh
# A drill of two stations and a back end, each in a folder of its own, with evaluate.py in the back end's place. A station sees its own file alone. At
# the end a desk, which has all three files, compares every state and mark with plain steps, and the answer with the pair program's.
# Use: drill.sh BACKEND PAIR FILES ROOM, each a whole path: the programs; a folder with left.cnf, right.cnf, public.cnf and budget; a folder to make.
set -eu
backend=$1 pair=$2 files=$3 room=$4
evaluate=$(cd "$(dirname "$0")" && pwd)/evaluate.py
whole=20 # the budget that is used up, with no mark shown
rm -rf "$room"
mkdir -p "$room/left" "$room/right" "$room/backend" "$room/desk"
cp "$files/left.cnf" "$room/left"
cp "$files/right.cnf" "$room/right"
cp "$files/public.cnf" "$room/backend"
cp "$files/left.cnf" "$files/right.cnf" "$files/public.cnf" "$files/budget" "$room/desk"

# What everybody knows: the number of variables and, of each table, how many rows it has. A station announces its own.
field() { awk -v field="$1" '/^p cnf / { print $field; exit }' "$2"; }
n=$(field 3 "$room/backend/public.cnf")
left=$(field 4 "$room/left/left.cnf")
right=$(field 4 "$room/right/right.cnf")
public=$(field 4 "$room/backend/public.cnf")

# Each station makes its own bits, by rows and by columns, which are the same, and hands them over.
for station in left right; do
    (cd "$room/$station" && "$backend" station "$n" "$station.cnf" >"$station.bits" && "$backend" columns "$n" "$station.cnf" >"$station.columns")
    cmp "$room/$station/$station.bits" "$room/$station/$station.columns"
    cp "$room/$station/$station.bits" "$room/backend"
done

# The back end makes the circuit from four numbers, and repeats it. It has no public value where there are no public rows.
cd "$room/backend"
"$backend" circuit "$n" "$left" "$right" "$public" >circuit.txt
"$backend" public "$n" public.cnf >public.bits
"$backend" fresh "$n" >fresh.bits
if [ "$public" -eq 0 ]; then set -- left.bits right.bits fresh.bits; else set -- left.bits right.bits public.bits fresh.bits; fi
python3 "$evaluate" circuit.txt "$(cat ../desk/budget)" all "$@" >repeats
python3 "$evaluate" circuit.txt $whole last "$@" >whole

# The desk compares every state and mark, and the back end gives its answers.
(cd ../desk && "$backend" expected left.cnf right.cnf public.cnf "$(cat budget)") | cmp - repeats
cut -d ' ' -f 1 fresh.bits repeats | tail -n 1 | "$backend" answer "$n" "$(wc -l <repeats)" >answer
"$backend" answer "$n" $whole <whole >whole.answer

# The desk compares the answer, and that of the whole budget, which differs from the pair program's in the count alone.
cd ../desk
"$pair" <budget | cmp - ../backend/answer
"$backend" whole left.cnf right.cnf public.cnf $whole | cmp - ../backend/whole.answer
echo $whole | "$pair" | sed "s/^c steps .*/c steps $whole/" | cmp - ../backend/whole.answer
echo "circuit of $(sed -n 1p ../backend/circuit.txt | cut -d ' ' -f 1) gates for $n variables and $left, $right and $public rows"
echo "$(wc -l <../backend/repeats) repeats, each state and mark as expected; with $whole repeats and no marks the same verdict and model"
cat ../backend/answer
