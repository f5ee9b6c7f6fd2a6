#!/bin/sh
# Checks what README.md and docs/ say against the tree and the program.
#
#   the kit         README names the kit that `rt version` prints, among others
#   the size        README has at most 16 KB
#   the examples    README shows what examples/run.sh and examples/bug.sh print, and a section of the certificate for the first;
#                   examples/report.txt keeps the report
#   the drawing     docs/layers.svg is what tests/layers.py makes of crates.txt
#   the graph       docs/graph.dot, of which `dot -Tsvg` made docs/graph.svg, is what `graphs` prints, and USING shows lines of the listing
#   names           each name that a page gives is found (tests/names.py)
#   definitions     docs/DEFINITIONS.md lists the definitions that the clauses of `run` lead to (tests/definitions.py)
#
# It works on the programs that `rt run` leaves in crates/punthizha and crates/graphs, or on those that the environment variables
# PUNTHIZHA and GRAPHS name.
set -u
top=$(cd "$(dirname "$0")/.." && pwd)
program=${PUNTHIZHA:-$top/crates/punthizha/out/punthizha}
graphs=${GRAPHS:-$top/crates/graphs/out/graphs}
work=$(mktemp -d) || exit 2
trap 'rm -rf "$work"' EXIT
failed=0

verdict() {
  if [ "$1" -eq 0 ]; then
    echo "ok      $2"
  else
    echo "FAILED  $2"
    failed=1
  fi
}

# shown WORD [PAGE]: the block of README, or of another page, that begins with ```WORD
shown() {
  awk -v word="\`\`\`$1" '$0 == "```" { inside = 0 } inside; $0 == word { inside = 1 }' "$top/${2:-README.md}"
}

# drawn [--dot]: the least graph of sumOfEights
drawn() {
  "$graphs" "$@" "$top/examples/before/Ints.class" "$top/examples/after/Ints.class" sumOfEights '(I)I'
}

# section METHOD: the section on a method of the certificate for the example
section() {
  "$program" validate --cert "$work/cert" "$top/examples/before/Ints.class" "$top/examples/after/Ints.class" >"$work/said"
  awk -v head="method $1 " 'index($0, head) == 1 { inside = 1 } inside; $0 == "end" { inside = 0 }' "$work/cert"
}

shown kit | grep -qxF "$(rt version)"
verdict $? "the kit is $(rt version)"
[ "$(wc -c <"$top/README.md")" -le 16384 ]
verdict $? 'README has at most 16 KB'
[ "$(shown report)" = "$(cat "$top/examples/report.txt")" ]
verdict $? 'README shows the report that is kept'
[ "$(sh "$top/examples/run.sh")" = "$(cat "$top/examples/report.txt")" ]
verdict $? 'examples/run.sh prints the report that is kept'
[ "$(shown bug)" = "$(sh "$top/examples/bug.sh")" ]
verdict $? 'README shows what examples/bug.sh prints'
[ "$(shown section)" = "$(section sumOfEights)" ]
verdict $? 'README shows the section on sumOfEights'
python3 "$top/tests/layers.py" | cmp -s - "$top/docs/layers.svg"
verdict $? 'docs/layers.svg is the drawing of crates.txt'
[ "$(drawn --dot)" = "$(cat "$top/docs/graph.dot")" ]
verdict $? 'docs/graph.dot is the graph of sumOfEights'
shown graph docs/USING.md | grep -q . && [ -z "$(shown graph docs/USING.md | grep -vxF "$(drawn)")" ]
verdict $? 'USING shows lines of its listing'
python3 "$top/tests/names.py"
verdict $? 'each name is found'
python3 "$top/tests/definitions.py"
verdict $? 'the lists of definitions'
exit $failed
