# What tools/jars.sh and tools/check-jars.sh have in common; both read it with `.`. NAME is the script's name, for its messages.
#
# It finds the program, `cd crates/punthizha && rt run` leaves it, or the environment variable PUNTHIZHA names it; and it unpacks two JARs, with unzip:
# the classes of the first stand in $work/first then, those of the second in $work/second, their paths in $work/first.list and $work/second.list, in order, and
# the paths that both have in $work/both.
LC_ALL=C
export LC_ALL
program=${PUNTHIZHA:-$here/../crates/punthizha/out/punthizha}

fail() {
  echo "$name: $1" >&2
  exit 2
}

# unpack JAR SIDE: the classes of a JAR as $work/SIDE, with the list of their paths, in order. unzip is given a name of
# our own, since it would read one like a[1].jar as a pattern. Its status 11 says that no class is there.
unpack() {
  [ -f "$1" ] || fail "no file $1"
  mkdir "$work/$2"
  cp "$1" "$work/$2.jar" && chmod u+rw "$work/$2.jar" || exit 2
  unzip -q -o "$work/$2.jar" '*.class' -d "$work/$2" </dev/null >"$work/log" 2>&1
  case $? in
    0 | 1 | 11) ;;
    *) cat "$work/log" >&2; fail "$1 can't be read" ;;
  esac
  (cd "$work/$2" && find . -type f -name '*.class') | sed 's|^\./||' | sort >"$work/$2.list"
  unzip -Z1 "$work/$2.jar" '*.class' 2>/dev/null </dev/null | sort -u >"$work/log"
  [ "$(wc -l <"$work/log")" -eq "$(wc -l <"$work/$2.list")" ] || fail "not all classes of $1 can be unpacked"
  rm "$work/$2.jar"
}

# unpack_both A.jar B.jar
unpack_both() {
  [ -x "$program" ] || fail "no program: run 'cd crates/punthizha && rt run' first"
  command -v unzip >/dev/null || fail 'no unzip'
  work=$(mktemp -d) || exit 2
  trap 'rm -rf "$work"' EXIT
  unpack "$1" first
  unpack "$2" second
  comm -12 "$work/first.list" "$work/second.list" >"$work/both"
  total=$(wc -l <"$work/both" | tr -d ' ')
  done_=0
}

# progress CLASS: how far it is, where standard error is a terminal; with no argument it clears that line
progress() {
  [ -t 2 ] || return 0
  if [ $# -eq 0 ]; then
    printf '\r\033[K' >&2
  else
    done_=$((done_ + 1))
    printf '\r\033[K%s of %s  %s' "$done_" "$total" "$1" >&2
  fi
}

# What is found goes into $work/found: a line KIND, tab, text.
tab=$(printf '\t')
found() {
  printf '%s\t%s\n' "$1" "$2" >>"$work/found"
}

count() {
  grep -c "^$1$tab" "$work/found"
}
