#!/usr/bin/env bash
# Runs every script that is no part of the gate, and says after each how many minutes it took, and whether it failed.
#
#   tests/all.sh [--long]     with --long the sizes are those of docs/PROVED.md; else each script is done within some minutes
#
# It needs the programs (`rt run` in crates/punthizha and in crates/graphs, `rt run < stdin` in crates/cases), a JDK 17, ProGuard (Debian: proguard-cli), AFL++ (afl++), gcc, unzip and zip. The edits that
# the prover must refuse are tried by tests/edits.sh, which proves crates anew; the price of the gate is told by tests/price.py.
set -u
cd "$(dirname "$0")/.." || exit 2
long=no
[ "${1:-}" = --long ] && long=yes
failed=0

# run SHORT LONG WORD..: a script with its arguments, by the size that is wanted; `-` for none
run() {
  size=$1
  [ "$long" = yes ] && size=$2
  script=$3
  shift 3
  [ "$size" = - ] && size=
  begin=$(date +%s)
  # shellcheck disable=SC2086
  if "$script" "$@" $size >"$log" 2>&1; then said=ok; else said=FAILED; failed=1; fi
  echo "$said $script $* $size: $(awk "BEGIN { printf \"%.1f\", ($(date +%s) - $begin) / 60 }") minutes; $(tail -n 1 "$log" | cut -c 1-200)"
  [ "$said" = ok ] || tail -n 5 "$log" >&2
}

log=$(mktemp)
trap 'rm -f "$log"' EXIT
jars=/usr/share/java/commons-cli.jar

run - - tests/crates.py
run - - tests/pages.sh
run - - tests/outside.sh
run '1 2000' '1 100000' tests/loops.py
run '2 300' '2 21000' tests/trees.py
run '2 300' '2 2000' tests/classes.py
run '1 200 10' '1 2000 50' tests/machine.py
run '3 300' '3 10000' tests/roots.py
run '3 100' '3 2000' tests/roots.py --loops
run '5 300' '5 100000 1 60' tests/counted.py
run '1 200' '1 20000' tests/axioms.py
run '1 200' '1 20000' tests/search.py
run '20000' '1000000' tests/certs.py
run '500' '20000' tests/migrate.py
run '6000' '150000' tests/sections.py
run '500' '12000' tests/trims.py
run '2 2 50' '2 200 50' tests/mutants.py
run '1 2 50' '1 40 50' tests/differences.py
run "$jars" "$jars /usr/share/java/commons-io.jar /usr/share/java/commons-lang3.jar" tests/pairs.py --cert
run "$jars" "$jars /usr/share/java/commons-io.jar /usr/share/java/commons-lang3.jar" tests/lemmas.py --jars
run '8 3 1' '11 12 3' tests/wide.py
run '10000' '100000' tests/rounds.py
run '200' '2000' tests/workers.py
run '500' '10000' tests/twins.py
run '1 20000' '1 1000000' tests/listings.py
run '20' '2000' tests/makes.py
run '2000' '100000' tests/chains.py
run - - tests/memory.py
run '1 20000' '1 10000000' tests/fuzz.py
run '1' '10' tests/afl.py
run - - tests/sizes.py
if [ "$long" = yes ]; then
  run - - tests/codes.py
  run - - tests/jdk.py
fi
exit $failed
