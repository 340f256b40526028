#!/bin/sh
# Makes the lists that go by rule, answers every list, and checks what the answers must be.
# usage: ./make_answers.sh FOLDER of the published crate (see mount.sh)
set -eu
folder=$(cd "${1:?usage: make_answers.sh FOLDER of the published crate}" && pwd)
cd "$(dirname "$0")"
./mount.sh "$folder"
cargo build --offline --release -q -j 1
oracle=target/release/oracle
mkdir -p answers nan_bits

fail() { echo "make_answers.sh: $1" >&2; exit 1; }
# The refusal numbers in a file of answers, in order.
numbers() {
  found=$(sed -n 's/.* -> refuse \([0-9]*\).*/\1/p' "$1" | sort -nu | tr '\n' ' ' | sed 's/ $//')
  echo "${found:-none}"
}
# The first line of a list names the refusals that its answers have.
check_heading() {
  heading=$(sed -n '1s,^// refusals: \([a-z0-9 ]*\)\. .*,\1,p' "$1")
  [ "$heading" = "$(numbers "$2")" ] || fail "$1 is headed '$heading', but has refusals $(numbers "$2")"
}

for name in short_columns bitmaps damaged damaged_errors made_up; do
  "$oracle" list $name > lists/$name.txt
done
for name in figures steps nan_bits short_columns bitmaps damaged made_up; do
  "$oracle" < lists/$name.txt > answers/$name.txt || fail "an error in $name.txt"
  "$oracle" --model < lists/$name.txt | cmp -s - answers/$name.txt || fail "crate and definition differ in $name.txt"
  check_heading lists/$name.txt answers/$name.txt
done

# Damaged lines that are errors: nothing but the good lines is answered.
if "$oracle" < lists/damaged_errors.txt > target/damaged_errors.out 2> target/damaged_errors.err; then
  fail "damaged_errors.txt has no error"
fi
lines=$(wc -l < lists/damaged_errors.txt)
answered=$(wc -l < target/damaged_errors.out)
errors=$(grep -c '^error: line [0-9]*: ' target/damaged_errors.err)
[ $((answered + errors)) = "$lines" ] || fail "damaged_errors.txt: $answered answers and $errors errors of $lines lines"
check_heading lists/damaged_errors.txt target/damaged_errors.out

# The differences, with both answers.
"$oracle" < lists/differences.txt > lists/differences.crate.txt
"$oracle" --model < lists/differences.txt > lists/differences.txt.expected
"$oracle" --like-crate < lists/differences.txt | cmp -s - lists/differences.crate.txt ||
  fail "the crate differs in differences.txt, and not by a listed difference"
check_heading lists/differences.txt lists/differences.txt.expected

# The bits of the NaNs, which the script language does not show.
"$oracle" --nan-bits < lists/nan_bits.txt > nan_bits/crate.txt
"$oracle" --nan-bits --model < lists/nan_bits.txt > nan_bits/definition.txt

echo "lists and answers made; crate and definition agree but for lists/differences.txt"
for name in figures steps nan_bits short_columns bitmaps damaged made_up differences; do
  printf '%6s calls in %s.txt, refusals %s\n' "$(grep -c '^[a-z]' lists/$name.txt)" $name \
    "$(sed -n '1s,^// refusals: \([a-z0-9 ]*\)\. .*,\1,p' lists/$name.txt)"
done
printf '%6s errors in damaged_errors.txt\n' "$errors"
cat lists/figures.txt lists/steps.txt lists/nan_bits.txt lists/short_columns.txt lists/bitmaps.txt lists/damaged.txt \
  lists/made_up.txt lists/differences.txt | "$oracle" --tally 2>&1 > target/all.out
