#!/bin/sh
# Sees to the static library, builds the examples over it, runs them, and compares what they print.
set -eu
cd "$(dirname "$0")/../.."
mkdir -p target/host
tools/archive
try() {
    cc -std=c11 -Wall -Wextra -Werror -O2 -I host "host/c/$1.c" -L target/staticlib -lgrillenhelm -o "target/host/$1"
    "target/host/$1" "examples/$2" > "target/host/$1.out"
    diff "host/c/$1.expected" "target/host/$1.out"
    echo "host/c/$1.c prints what is expected"
}
try trust trust.fcl
try serial crane.fcl
