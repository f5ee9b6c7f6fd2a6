#!/bin/sh
# Checks the certificates that `tools/jars.sh --certificates DIR A.jar B.jar` wrote, class by class, with `punthizha check`: no search is made.
#
#   tools/check-jars.sh DIR A.jar B.jar
#
# It prints a line for each section of which the program doesn't say `equivalent`: the path of the class, a colon, and what it says. So it does for a class
# of both JARs that has no certificate, and for a certificate that is none for these classes. A summary ends it.
#
#   0  each class that both JARs have has a certificate, and all sections are accepted
#   1  some line says otherwise
#   2  a JAR or a class file can't be read, or the program failed, or the words are others than above
#
# Methods without a section are not looked at: of them nothing is known. Where standard error is a terminal, it says there how far it is. It runs the program
# that `cd crates/punthizha && rt run` leaves, or the one that the environment variable PUNTHIZHA names, and needs unzip.
set -u
here=$(cd "$(dirname "$0")" && pwd)
name=check-jars.sh
. "$here/classes.sh"
[ $# -eq 3 ] || fail 'usage: check-jars.sh DIR A.jar B.jar'
certificates=$1
[ -d "$certificates" ] || fail "no folder $certificates"
unpack_both "$2" "$3"
: >"$work/found"

# The lines of a report on a certificate, each with its kind.
report() {
  while IFS=' ' read -r method type kind rest; do
    found "$kind" "$1: $method $type $kind${rest:+ $rest}"
  done <"$work/said"
}

while IFS= read -r class; do
  progress "$class"
  if [ ! -f "$certificates/$class.cert" ]; then
    found none "$class: no certificate"
    continue
  fi
  "$program" check "$work/first/$class" "$work/second/$class" "$certificates/$class.cert" >"$work/said" 2>/dev/null </dev/null
  status=$?
  case $status in
    0 | 1) report "$class" ;;
    2) found bad "$class: $(cat "$work/said")" ;;
    3) found other "$class: $(cat "$work/said")" ;;
    *) found failed "$class: the program ended with status $status" ;;
  esac
done <"$work/both"
progress

grep -v "^equivalent$tab" "$work/found" | cut -f 2-
all=$(wc -l <"$work/found" | tr -d ' ')
said=$((all - $(count none) - $(count bad) - $(count other) - $(count failed)))
echo "classes: $total in both, $(count none) without a certificate, $(count other) with a bad one, $(count bad) bad, $(count failed) failed"
echo "sections: $(count equivalent) equivalent, $((said - $(count equivalent))) others"
[ "$(count bad)" -eq 0 ] && [ "$(count failed)" -eq 0 ] || exit 2
[ "$all" -eq "$(count equivalent)" ]
