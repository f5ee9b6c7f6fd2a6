#!/bin/sh
# Makes before/Ints.class with javac, and after/Ints.class from it with ProGuard.
#
#   sh examples/make.sh [FOLDER]     into FOLDER, by default this one
#
# It takes the javac of a JDK 17 and ProGuard 6.2.2, as Debian 12 has them: apt-get install openjdk-17-jdk-headless
# proguard-cli. ProGuard reads class files up to those of Java 13, so the classes of Java 8 that the JDK keeps for
# `javac --release 8` (lib/ct.sym) are copied with the version of Java 8.
set -eu
here=$(cd "$(dirname "$0")" && pwd)
into=$(cd "${1:-$here}" && pwd)
work=$(mktemp -d)
trap 'rm -rf "$work"' EXIT
java_home=$(dirname "$(dirname "$(readlink -f "$(command -v javac)")")")

mkdir "$work/before"
javac --release 8 -g:none -d "$work/before" "$here/Ints.java"
python3 "$here/java8.py" "$java_home/lib/ct.sym" "$work/java8.jar"
cp "$here/ints.pro" "$work"
(cd "$work" && proguard @ints.pro >log) || { cat "$work/log" >&2; exit 1; }
mkdir -p "$into/before" "$into/after"
cp "$work/before/Ints.class" "$into/before/Ints.class"
cp "$work/after/Ints.class" "$into/after/Ints.class"
