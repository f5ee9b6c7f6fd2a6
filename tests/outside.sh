#!/bin/sh
# Runs the built program over real files and standard output, and compares statuses and text.
# It works on the program that `cd crates/punthizha && rt run` leaves, or on the one that the environment variable
# PUNTHIZHA names. Last it runs tools/jars.sh on JARs that the JDK's `jar` makes; that part is left out where there is no
# `jar` or no `unzip`.
set -u
top=$(cd "$(dirname "$0")/.." && pwd)
program=${PUNTHIZHA:-$top/crates/punthizha/out/punthizha}
class=$top/crates/punthizha/data/A
[ -x "$program" ] || { echo "no program: run 'cd crates/punthizha && rt run' first"; exit 2; }
work=$(mktemp -d) || exit 2
trap 'chmod -R u+rwx "$work"; rm -rf "$work"' EXIT
chmod 755 "$work"
failed=0

# expect NAME STATUS TEXT WORD..
expect() {
  name=$1 status=$2 text=$3
  shift 3
  said=$(timeout 120 "$program" "$@" 2>"$work/err"; echo "status $?")
  want=$(printf '%sstatus %s' "$text" "$status")
  if [ "$said" = "$want" ] && [ ! -s "$work/err" ]; then
    echo "ok      $name"
  else
    echo "FAILED  $name: said '$said', wanted '$want'"
    failed=1
  fi
}

line='f ()I equivalent
'
cp "$class" "$work/A"
cp "$class" "$work/B"
head -c 4194305 /dev/zero > "$work/long"
: > "$work/empty"
mkdir "$work/folder"
cp "$class" "$work/closed"
chmod 000 "$work/closed"

expect 'two equal files' 0 "$line" validate "$work/A" "$work/B"
expect 'no words' 4 'bad words
'
expect 'a word too few' 4 'bad words
' validate "$work/A"
expect 'a word too many' 4 'bad words
' validate "$work/A" "$work/B" C
expect 'an empty word' 4 'bad words
' validate "" "$work/B"
expect 'an option' 4 'bad words
' validate --help
expect 'a certificate' 0 "$line" validate --rounds=3 --cert "$work/cert" "$work/A" "$work/B"
expect 'the certificate is checked' 0 "$line" check "$work/A" "$work/B" "$work/cert"
expect 'a flag' 0 "$line" validate --counted "$work/A" "$work/B"
expect 'a flag beside a certificate' 4 'bad words
' validate --counted --cert "$work/cert" "$work/A" "$work/B"
expect 'a certificate in no folder' 6 '' validate --cert "$work/absent/cert" "$work/A" "$work/B"
cp "$work/A" "$work/C"
expect 'a certificate in the place of a file' 0 "$line" validate "$work/C" "$work/B" --cert "$work/C"
expect 'the certificate in its place' 0 "$line" check "$work/A" "$work/B" "$work/C"
expect 'a word that is not UTF-8' 4 'bad words
' validate "$(printf '\377')" "$work/B"
expect 'an absent file' 5 '' validate "$work/absent" "$work/B"
expect 'an absent second file' 5 '' validate "$work/A" "$work/absent"
expect 'a folder' 5 '' validate "$work/folder" "$work/B"
expect 'an empty file' 2 'bad class first truncated at 0
' validate "$work/empty" "$work/B"
expect 'a file that is too long' 2 'bad class second too-long at 4194304
' validate "$work/A" "$work/long"
expect 'an endless file' 2 'bad class first too-long at 4194304
' validate /dev/zero "$work/B"

# Certificates, with the digest that `sha256sum` gives. Without steps a section says that both roots are one node.
digest=$(sha256sum < "$class" | cut -d' ' -f1)
other=$(sha256sum < "$work/empty" | cut -d' ' -f1)
printf 'peggy-cert 2\nfirst %s\nsecond %s\nmethod f ()I\nend\n' "$digest" "$digest" > "$work/cert"
printf 'peggy-cert 2\nfirst %s\nsecond %s\nmethod f ()I\nend\n' "$digest" "$other" > "$work/other"
expect 'a certificate' 0 "$line" check "$work/A" "$work/B" "$work/cert"
expect 'a certificate of another file' 3 "bad certificate second $other $digest
" check "$work/A" "$work/B" "$work/other"
expect 'an empty certificate' 3 'bad certificate truncated
' check "$work/A" "$work/B" "$work/empty"
expect 'an endless certificate' 3 'bad certificate too-long
' check "$work/A" "$work/B" /dev/zero
expect 'an absent certificate' 5 '' check "$work/A" "$work/B" "$work/absent"

# A lemma of one node, and uses of it and of none: node 3 is the int that f returns.
sed '3s/.*/&\nlemma 1 I\nprove 0 0/; 4s/.*/&\nuse 1 3 3 3/' "$work/cert" > "$work/lemma"
expect 'a certificate with a lemma' 0 "$line" check "$work/A" "$work/B" "$work/lemma"
sed 's/use 1/use 2/' "$work/lemma" > "$work/broken"
expect 'a use of no lemma' 1 'f ()I rejected 1
' check "$work/A" "$work/B" "$work/broken"
sed 's/lemma 1/lemma 2/' "$work/lemma" > "$work/broken"
expect 'a lemma with another number' 3 'bad certificate line 4
' check "$work/A" "$work/B" "$work/broken"

# Certificates of version 1, which `migrate` alone reads.
sed '1s/2/1/' "$work/cert" > "$work/version1"
expect 'a certificate of version 1' 3 'bad certificate header
' check "$work/A" "$work/B" "$work/version1"
expect 'a certificate migrated' 0 'migrated 1 sections
' migrate "$work/version1" "$work/migrated"
expect 'a certificate migrated in its place' 0 'migrated 1 sections
' migrate "$work/version1" "$work/version1"
if cmp -s "$work/migrated" "$work/cert" && cmp -s "$work/version1" "$work/cert"; then
  echo 'ok      the migrated certificates'
else
  echo 'FAILED  the migrated certificates'
  failed=1
fi
expect 'migrate: a certificate of version 2' 3 'bad certificate header
' migrate "$work/cert" "$work/none"
sed '1s/2/1/' "$work/lemma" > "$work/broken"
expect 'migrate: a lemma in version 1' 3 'bad certificate line 4
' migrate "$work/broken" "$work/none"
expect 'migrate: an empty certificate' 3 'bad certificate truncated
' migrate "$work/empty" "$work/none"
expect 'migrate: an endless certificate' 3 'bad certificate too-long
' migrate /dev/zero "$work/none"
expect 'migrate: an absent certificate' 5 '' migrate "$work/absent" "$work/none"
expect 'migrate: a word too few' 4 'bad words
' migrate "$work/cert"
expect 'migrate: a word too many' 4 'bad words
' migrate "$work/cert" "$work/none" C
expect 'migrate: an option' 4 'bad words
' migrate --cert "$work/none" "$work/cert" "$work/none"
sed '1s/2/1/' "$work/cert" > "$work/version1"
expect 'migrate: a certificate in no folder' 6 '' migrate "$work/version1" "$work/absent/cert"
if [ -e "$work/none" ]; then
  echo 'FAILED  nothing is placed where nothing is migrated'
  failed=1
else
  echo 'ok      nothing is placed where nothing is migrated'
fi

# Chains of that certificate and itself, and of others; a class that returns 2 and not 1.
LC_ALL=C sed "$(printf 's/\004\254/\005\254/')" "$class" >"$work/returns2"
expect 'two certificates composed' 0 'composed
' compose "$work/A" "$work/B" "$work/A" "$work/cert" "$work/cert" "$work/chain"
expect 'the chain is checked' 0 "$line" check-chain "$work/A" "$work/B" "$work/chain"
cp "$work/cert" "$work/placed"
expect 'a chain in the place of a certificate' 0 'composed
' compose "$work/A" "$work/B" "$work/A" "$work/cert" "$work/placed" "$work/placed"
expect 'the chain in its place' 0 "$line" check-chain "$work/A" "$work/A" "$work/placed"
expect 'compose: a word too few' 4 'bad words
' compose "$work/A" "$work/B" "$work/A" "$work/cert" "$work/cert"
expect 'compose: a word too many' 4 'bad words
' compose "$work/A" "$work/B" "$work/A" "$work/cert" "$work/cert" "$work/none" C
expect 'compose: an option' 4 'bad words
' compose --cert "$work/none" "$work/A" "$work/B" "$work/A" "$work/cert" "$work/cert" "$work/none"
expect 'compose: an empty word' 4 'bad words
' compose "$work/A" "$work/B" "$work/A" "$work/cert" "$work/cert" ""
expect 'check-chain: a word too few' 4 'bad words
' check-chain "$work/A" "$work/B"
expect 'check-chain: a word too many' 4 'bad words
' check-chain "$work/A" "$work/B" "$work/A" "$work/chain"
expect 'check-chain: an option' 4 'bad words
' check-chain --counted "$work/A" "$work/B" "$work/chain"
expect 'compose: an absent file' 5 '' compose "$work/absent" "$work/B" "$work/A" "$work/cert" "$work/cert" "$work/none"
expect 'compose: an absent second file' 5 '' compose "$work/A" "$work/absent" "$work/A" "$work/cert" "$work/cert" "$work/none"
expect 'compose: an absent third file' 5 '' compose "$work/A" "$work/B" "$work/absent" "$work/cert" "$work/cert" "$work/none"
expect 'compose: an absent certificate' 5 '' compose "$work/A" "$work/B" "$work/A" "$work/absent" "$work/cert" "$work/none"
expect 'compose: a folder for a certificate' 5 '' compose "$work/A" "$work/B" "$work/A" "$work/cert" "$work/folder" "$work/none"
expect 'check-chain: an absent file' 5 '' check-chain "$work/absent" "$work/B" "$work/chain"
expect 'check-chain: an absent second file' 5 '' check-chain "$work/A" "$work/absent" "$work/chain"
expect 'check-chain: an absent chain' 5 '' check-chain "$work/A" "$work/B" "$work/absent"
expect 'compose: a third file that is empty' 2 'bad class third truncated at 0
' compose "$work/A" "$work/B" "$work/empty" "$work/cert" "$work/cert" "$work/none"
expect 'compose: a second file that is too long' 2 'bad class second too-long at 4194304
' compose "$work/A" "$work/long" "$work/A" "$work/cert" "$work/cert" "$work/none"
expect 'check-chain: a second file that is empty' 2 'bad class second truncated at 0
' check-chain "$work/A" "$work/empty" "$work/chain"
expect 'compose: an empty certificate' 3 'bad link 1 truncated
' compose "$work/A" "$work/B" "$work/A" "$work/empty" "$work/cert" "$work/none"
expect 'compose: a certificate that is none' 3 'bad link 2 header
' compose "$work/A" "$work/B" "$work/A" "$work/cert" "$work/chain" "$work/none"
expect 'compose: an endless certificate' 3 'bad link 2 too-long
' compose "$work/A" "$work/B" "$work/A" "$work/cert" /dev/zero "$work/none"
expect 'compose: a certificate of another file' 3 'bad link 1 digest
' compose "$work/A" "$work/B" "$work/A" "$work/other" "$work/cert" "$work/none"
expect 'compose: a second certificate of another file' 3 'bad link 2 digest
' compose "$work/A" "$work/B" "$work/A" "$work/cert" "$work/other" "$work/none"
expect 'compose: a third file that is another' 3 'bad link 2 digest
' compose "$work/A" "$work/B" "$work/returns2" "$work/cert" "$work/cert" "$work/none"
expect 'compose: a chain in no folder' 6 '' compose "$work/A" "$work/B" "$work/A" "$work/cert" "$work/cert" "$work/absent/chain"
if [ -e "$work/none" ]; then
  echo 'FAILED  nothing is placed where nothing is composed'
  failed=1
else
  echo 'ok      nothing is placed where nothing is composed'
fi
expect 'an empty chain' 3 'bad chain truncated
' check-chain "$work/A" "$work/B" "$work/empty"
expect 'an endless chain' 3 'bad chain too-long
' check-chain "$work/A" "$work/B" /dev/zero
expect 'a certificate in place of a chain' 3 'bad chain header
' check-chain "$work/A" "$work/B" "$work/cert"
head -c -1 "$work/chain" >"$work/broken"
expect 'a chain without its last line feed' 3 'bad chain truncated
' check-chain "$work/A" "$work/B" "$work/broken"
sed '2s/ ca/ CA/' "$work/chain" >"$work/broken"
expect 'a chain with capital digits' 3 'bad chain header
' check-chain "$work/A" "$work/B" "$work/broken"
sed '3s/5/4/' "$work/chain" >"$work/broken"
expect 'a chain that says a line too few' 3 'bad chain first
' check-chain "$work/A" "$work/B" "$work/broken"
sed '$d' "$work/chain" >"$work/broken"
expect 'a chain without its last line' 3 'bad chain second
' check-chain "$work/A" "$work/B" "$work/broken"
expect 'a chain for another file' 3 'bad chain digest
' check-chain "$work/A" "$work/returns2" "$work/chain"
sed '12s/.*/&\nflip 0 0 1.1/' "$work/chain" >"$work/broken"
expect 'a chain with a step that is wrong' 1 'f ()I rejected second 1
' check-chain "$work/A" "$work/B" "$work/broken"
sed '12s/f/g/' "$work/chain" >"$work/broken"
expect 'a chain of two methods' 0 '' check-chain "$work/A" "$work/B" "$work/broken"

# An unreadable file, read by one who is not the superuser.
if [ "$(id -u)" -eq 0 ] && command -v setpriv >/dev/null 2>&1; then
  cp "$program" "$work/program" && chmod 755 "$work/program"
  (cd "$work" && setpriv --reuid 65534 --clear-groups ./program validate closed B) >"$work/out" 2>&1
  status=$?
else
  "$program" validate "$work/closed" "$work/B" >"$work/out" 2>&1
  status=$?
fi
if [ "$status" -eq 5 ] && [ ! -s "$work/out" ]; then
  echo "ok      an unreadable file"
else
  echo "FAILED  an unreadable file: status $status"
  failed=1
fi

# Standard output that takes nothing.
for case in closed full; do
  if [ "$case" = closed ]; then
    timeout 20 "$program" validate "$work/A" "$work/B" >&-
  else
    timeout 20 "$program" validate "$work/A" "$work/B" >/dev/full
  fi
  status=$?
  if [ "$status" -eq 6 ]; then
    echo "ok      standard output is $case"
  else
    echo "FAILED  standard output is $case: status $status"
    failed=1
  fi
  # The chain is placed all the same, as a certificate is.
  rm -f "$work/placed"
  if [ "$case" = closed ]; then
    timeout 20 "$program" compose "$work/A" "$work/B" "$work/A" "$work/cert" "$work/cert" "$work/placed" >&-
    status=$?
    timeout 20 "$program" check-chain "$work/A" "$work/B" "$work/chain" >&-
  else
    timeout 20 "$program" compose "$work/A" "$work/B" "$work/A" "$work/cert" "$work/cert" "$work/placed" >/dev/full
    status=$?
    timeout 20 "$program" check-chain "$work/A" "$work/B" "$work/chain" >/dev/full
  fi
  status="$status and $?"
  if [ "$status" = '6 and 6' ] && cmp -s "$work/chain" "$work/placed"; then
    echo "ok      chains, and standard output is $case"
  else
    echo "FAILED  chains, and standard output is $case: status $status"
    failed=1
  fi
done

# jars NAME STATUS TEXT WORD..: what tools/jars.sh says, in the folder of the JARs
jars() {
  name=$1 status=$2 text=$3
  shift 3
  said=$(cd "$work" && PUNTHIZHA=$program sh "$top/tools/jars.sh" "$@" 2>/dev/null; echo "status $?")
  want=$(printf '%sstatus %s' "$text" "$status")
  if [ "$said" = "$want" ]; then
    echo "ok      $name"
  else
    echo "FAILED  $name: said '$said', wanted '$want'"
    failed=1
  fi
}

if command -v jar >/dev/null && command -v unzip >/dev/null; then
  # Two JARs with a name with a blank, an inner class, a class of a version, one that returns 2 and not 1, one that is
  # cut, and one that each has alone.
  mkdir -p "$work/one/p/a b" "$work/one/META-INF/versions/9/p"
  for file in 'p/a b/A' 'p/A' 'p/A$B' 'p/Cut' 'META-INF/versions/9/p/A'; do
    cp "$class" "$work/one/$file.class"
  done
  cp -r "$work/one" "$work/two"
  cp "$class" "$work/one/p/Old.class"
  cp "$class" "$work/two/p/New.class"
  LC_ALL=C sed "$(printf 's/\004\254/\005\254/')" "$class" >"$work/two/p/A\$B.class"
  jar cf "$work/a.jar" -C "$work/one" .
  jar cf "$work/b [1].jar" -C "$work/two" .
  head -c 50 "$class" >"$work/two/p/Cut.class"
  jar cf "$work/cut.jar" -C "$work/two" .

  different='p/A$B.class: f ()I unknown apart
p/Old.class: only in the first JAR
p/New.class: only in the second JAR
classes: 5 in both, 1 only in the first, 1 only in the second, 0 bad, 0 failed
methods: 4 equivalent, 1 unknown, 0 refused, 0 missing, 0 without code
'
  jars 'a JAR against itself' 0 'classes: 6 in both, 0 only in the first, 0 only in the second, 0 bad, 0 failed
methods: 6 equivalent, 0 unknown, 0 refused, 0 missing, 0 without code
' a.jar a.jar
  jars 'two JARs that differ' 1 "$different" a.jar 'b [1].jar'
  jars 'some kinds are allowed' 1 "$different" --allow unknown --allow only-first a.jar 'b [1].jar'
  jars 'all that differs is allowed' 0 "$different" --allow unknown --allow only-first --allow only-second a.jar 'b [1].jar'
  jars 'runs show a difference' 1 'p/A$B.class: f ()I unknown apart
p/A$B.class: f ()I differs try 1 args
p/Old.class: only in the first JAR
p/New.class: only in the second JAR
classes: 5 in both, 1 only in the first, 1 only in the second, 0 bad, 0 failed
methods: 4 equivalent, 1 unknown, 0 refused, 0 missing, 0 without code
runs: 1 of the unknown methods differ
' --refute --allow unknown --allow only-first --allow only-second a.jar 'b [1].jar'
  jars 'a JAR with a class that is cut' 2 'p/A$B.class: f ()I unknown apart
p/Cut.class: bad class second truncated at 50
p/Old.class: only in the first JAR
p/New.class: only in the second JAR
classes: 5 in both, 1 only in the first, 1 only in the second, 1 bad, 0 failed
methods: 3 equivalent, 1 unknown, 0 refused, 0 missing, 0 without code
' a.jar cut.jar
  jars 'by the core alone' 1 "$different" --axioms core a.jar 'b [1].jar'
  jars 'by all axioms' 0 "$different" --allow unknown --axioms all --allow only-first --allow only-second a.jar 'b [1].jar'
  jars 'where counted loops end' 1 "$different" --counted --axioms core a.jar 'b [1].jar'
  jars 'no such axioms' 2 '' --axioms both a.jar a.jar
  jars 'a file that is no JAR' 2 '' a.jar A
  jars 'no such kind' 2 '' --allow all a.jar a.jar
  jars 'a JAR too few' 2 '' a.jar
else
  echo 'left out  JARs: no jar or no unzip'
fi
exit $failed
