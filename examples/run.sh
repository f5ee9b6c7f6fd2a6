#!/bin/sh
# Compares the two classes of the example, and prints the report. Its exit status is the program's, 1: some line
# says something else than `equivalent`.
#
# It runs the program that `cd crates/punthizha && rt run` leaves, or the one that the environment variable
# PUNTHIZHA names.
here=$(cd "$(dirname "$0")" && pwd)
program=${PUNTHIZHA:-$here/../crates/punthizha/out/punthizha}
[ -x "$program" ] || { echo "no program: run 'cd crates/punthizha && rt run' first" >&2; exit 2; }
exec "$program" validate "$here/before/Ints.class" "$here/after/Ints.class"
