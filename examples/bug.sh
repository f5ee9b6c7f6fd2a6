#!/bin/sh
# Compares the two classes of the bug, and looks for an input that tells them apart. It prints each command and what that prints.
#
# It runs the program that `cd crates/punthizha && rt run` leaves, or the one that the environment variable
# PUNTHIZHA names.
here=$(cd "$(dirname "$0")" && pwd)
program=${PUNTHIZHA:-$here/../crates/punthizha/out/punthizha}
[ -x "$program" ] || { echo "no program: run 'cd crates/punthizha && rt run' first" >&2; exit 2; }
cd "$here/bug" || exit 2
for command in validate refute; do
  echo "\$ punthizha $command before/Half.class after/Half.class"
  "$program" $command before/Half.class after/Half.class
done
[ $? -eq 1 ]
