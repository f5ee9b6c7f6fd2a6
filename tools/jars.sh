#!/bin/sh
# Compares two JARs class by class, with `punthizha validate`.
#
#   tools/jars.sh [--axioms core|all] [--counted] [--allow KIND].. [--refute] [--certificates DIR] A.jar B.jar
#
# It prints a line for each method of A.jar that isn't `equivalent` to its namesake in B.jar: the path of the class, a
# colon, and what the program says of the method. So it does for a class file that can't be read or that only one of the
# two JARs has. A summary ends it. A class stands under its whole path in the JAR, so that a class of
# META-INF/versions/N is compared with the one of the same N.
#
# The search goes by all axioms, where `--axioms core` doesn't say otherwise. With --counted it knows that counted loops end, as
# `validate --counted` does.
#
# KIND is the word that a line is counted under: unknown, refused, missing, nocode, only-first or only-second. A line of
# an allowed kind is printed and counted, and doesn't change the status.
#
#   0  every method is equivalent, but for lines of allowed kinds
#   1  some line is of a kind that isn't allowed
#   2  a JAR or a class file can't be read, or the program failed, or the words are others than above
#
# With --refute, after each `unknown` line comes the line `differs` that `punthizha refute` prints for the method, if it does. Such
# methods are counted, and the status is then 1 at least, whatever is allowed.
#
# With --certificates, the certificate for each class that both JARs have is written as DIR/PATH.cert, PATH being that of the class; tools/check-jars.sh checks them
# again. No certificate can say that a loop ends, so --counted and --certificates exclude each other.
#
# Where standard error is a terminal, it says there how far it is. It runs the program that `cd crates/punthizha && rt run` leaves, or the one that the
# environment variable PUNTHIZHA names, and needs unzip.
set -u
here=$(cd "$(dirname "$0")" && pwd)
name=jars.sh
. "$here/classes.sh"
kinds='unknown refused missing nocode only-first only-second'

usage='usage: jars.sh [--axioms core|all] [--counted] [--allow KIND].. [--refute] [--certificates DIR] A.jar B.jar'
axioms=all
counted=
certificates=
allowed=' '
refute=no
while [ $# -gt 2 ]; do
  if [ "$1" = --refute ]; then
    refute=yes
    shift
    continue
  fi
  if [ "$1" = --counted ]; then
    counted=--counted
    shift
    continue
  fi
  if [ "$1" = --axioms ]; then
    case "$2" in
      core | all) axioms=$2 ;;
      *) fail "no axioms $2: core or all" ;;
    esac
    shift 2
    continue
  fi
  if [ "$1" = --certificates ]; then
    certificates=$2
    shift 2
    continue
  fi
  [ "$1" = --allow ] || fail "$usage"
  case " $kinds " in
    *" $2 "*) allowed="$allowed$2 " ;;
    *) fail "no kind $2: a kind is one of $kinds" ;;
  esac
  shift 2
done
[ $# -eq 2 ] || fail "$usage"
[ -z "$counted" ] || [ -z "$certificates" ] || fail "$usage"
unpack_both "$1" "$2"
: >"$work/found"

# The lines of a report, each with its kind: the third word of a line, since a blank in a name is printed as %20. After one
# that says `unknown` comes what runs of the method show, where they were asked for.
report() {
  while IFS=' ' read -r method type kind rest; do
    found "$kind" "$1: $method $type $kind${rest:+ $rest}"
    [ "$kind" = unknown ] && [ "$refute" = yes ] && difference "$1" "$method $type differs "
  done <"$work/said"
}

# difference CLASS FRONT: the line that begins so of what `refute` says of a class.
difference() {
  while IFS= read -r line; do
    case "$line" in
      "$2"*) found differs "$1: $line" ;;
    esac
  done <"$work/run"
}

# What runs show of a class of which a line says `unknown`.
run() {
  : >"$work/run"
  [ "$refute" = yes ] && grep -q ' unknown ' "$work/said" || return 0
  "$program" refute "$work/first/$1" "$work/second/$1" >"$work/run" 2>/dev/null </dev/null
  status=$?
  [ "$status" -eq 1 ] || found failed "$1: refute ended with status $status"
}

# The report on a class, and its certificate, where certificates are wanted.
validate() {
  set -- "$work/first/$1" "$work/second/$1" "$certificates/$1.cert"
  if [ -n "$certificates" ]; then
    mkdir -p "$(dirname "$3")" || fail "no folder for $3"
    "$program" validate --axioms "$axioms" --cert "$3" "$1" "$2"
  else
    "$program" validate --axioms "$axioms" ${counted:+--counted} "$1" "$2"
  fi >"$work/said" 2>/dev/null </dev/null
}

while IFS= read -r class; do
  progress "$class"
  validate "$class"
  status=$?
  case $status in
    0 | 1) run "$class"; report "$class" ;;
    2) found bad "$class: $(cat "$work/said")" ;;
    *) found failed "$class: the program ended with status $status" ;;
  esac
done <"$work/both"
progress
comm -23 "$work/first.list" "$work/second.list" >"$work/only"
while IFS= read -r class; do
  found only-first "$class: only in the first JAR"
done <"$work/only"
comm -13 "$work/first.list" "$work/second.list" >"$work/only"
while IFS= read -r class; do
  found only-second "$class: only in the second JAR"
done <"$work/only"

grep -v "^equivalent$tab" "$work/found" | cut -f 2-
echo "classes: $(wc -l <"$work/both" | tr -d ' ') in both, $(count only-first) only in the first, $(count only-second) only in the second," \
  "$(count bad) bad, $(count failed) failed"
echo "methods: $(count equivalent) equivalent, $(count unknown) unknown, $(count refused) refused, $(count missing) missing," \
  "$(count nocode) without code"
[ "$refute" = no ] || echo "runs: $(count differs) of the unknown methods differ"

[ "$(count bad)" -eq 0 ] && [ "$(count failed)" -eq 0 ] || exit 2
for kind in $kinds; do
  case "$allowed" in
    *" $kind "*) ;;
    *) [ "$(count "$kind")" -eq 0 ] || exit 1 ;;
  esac
done
[ "$(count differs)" -eq 0 ] || exit 1
exit 0
