#!/usr/bin/env bash
# Tries the edits crates/NAME/edits/*.edit, which are no part of the gate: the prover must refuse each. It works
# in a clone of the last commit, where they take the place of the gate's edits (crates/NAME/must-fail/), and prints
# for each edit the goal that refuses it. It fails where one is not refused, or is not tried.
#
#   tests/edits.sh [CRATE ..]      of all crates that have such edits if none is named
set -eu
top=$(cd "$(dirname "$0")/.." && pwd)
work=$(mktemp -d)
trap 'rm -rf "$work"' EXIT
git clone -q "$top" "$work/clone"
cd "$work/clone"

if [ $# -eq 0 ]; then
  mapfile -t found < <(find crates -path '*/edits/*.edit' | cut -d/ -f2 | sort -u)
  set -- "${found[@]}"
fi

edits=0
for crate in "$@"; do
  if ! ls "crates/$crate"/edits/*.edit >/dev/null 2>&1; then
    echo "$crate has no edits" >&2
    exit 2
  fi
  rm -rf "crates/$crate/must-fail"
  mv "crates/$crate/edits" "crates/$crate/must-fail"
  edits=$((edits + $(find "crates/$crate/must-fail" -name '*.edit' | wc -l)))
done

status=0
rt must-fail "$@" >"$work/log" 2>&1 || status=$?
cat "$work/log"
refused=$(grep -c '^rt: must-fail .*: refused, as it must be' "$work/log" || true)
echo "$refused of $edits edits refused"
[ "$status" -eq 0 ] && [ "$refused" -eq "$edits" ]
