#!/usr/bin/env bash
# Measures what the gate costs, in a clone of the last commit: a line for each crate with its lines of
# code, specs and proofs, the processor seconds of its proof from nothing, the number of its must-fail
# edits and their processor seconds, summed over all processes.
#
#   tests/cost.sh [CRATE ..]      all crates if none is named; what a named one stands on is proved first,
#                                 and not measured
set -eu
top=$(cd "$(dirname "$0")/.." && pwd)
work=$(mktemp -d)
trap 'rm -rf "$work"' EXIT
git clone -q "$top" "$work/clone"
cd "$work/clone"
TIMEFORMAT='%U %S'

# The crates, each after those that it stands on.
crates=$(awk -F: '/^[a-z]/ { names[$1]; uses[$1] = $2 }
  END { for (n in names) { print n, n; split(uses[n], used, " ")
        for (i in used) if (used[i] in names) print used[i], n } }' crates.txt | tsort)

# The processor seconds of a command, whose output goes into a log.
seconds() {
  local spent
  if ! spent=$( { time "$@" >"$work/log" 2>&1; } 2>&1 ); then
    tail -5 "$work/log" >&2
    echo "failed: $*" >&2
    exit 1
  fi
  echo "$spent" | awk '{ printf "%.0f", $1 + $2 }'
}

lines() {
  find "crates/$1/src" "crates/$1/specs" "crates/$1/proofs" -type f 2>/dev/null -print0 |
    xargs -0 cat | wc -l
}

prove() {
  if [ -f "crates/$1/src/lib.rt" ]; then
    (cd "crates/$1" && rt lib)
  else
    (cd "crates/$1" && rt check)
  fi
}

echo '| Crate | Lines | Proof, s | Edits | Edits, s |'
echo '|---|---|---|---|---|'
all_lines=0 all_proof=0 all_count=0 all_edits=0
for crate in $crates; do
  proof=$(seconds prove "$crate")
  if [ $# -gt 0 ] && [[ " $* " != *" $crate "* ]]; then
    continue
  fi
  count=$(find "crates/$crate/must-fail" -name '*.edit' 2>/dev/null | wc -l)
  edits=0
  [ "$count" -eq 0 ] || edits=$(seconds rt must-fail "$crate")
  number=$(lines "$crate")
  echo "| $crate | $number | $proof | $count | $edits |"
  all_lines=$((all_lines + number)) all_proof=$((all_proof + proof))
  all_count=$((all_count + count)) all_edits=$((all_edits + edits))
done
echo "| all | $all_lines | $all_proof | $all_count | $all_edits |"
