#!/bin/sh
# Makes target/after.jar of target/before.jar with ProGuard (Debian: proguard-cli), names kept. ProGuard 6.2.2 reads class files up to those of Java 13, so the
# classes of Java 8 that a JDK keeps for `javac --release 8` are copied with the version of Java 8.
set -eu
cd "$(dirname "$0")"
java_home=$(dirname "$(dirname "$(readlink -f "$(command -v javac)")")")
python3 ../java8.py "$java_home/lib/ct.sym" target/java8.jar
proguard @shrink.pro
