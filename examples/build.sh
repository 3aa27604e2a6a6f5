#!/bin/sh
# examples/build.sh ARCHIVE [PROGRAM]: compiles run.c and exceptions.c with the header, links each with the archive, and runs it.
# PROGRAM is where that of run.c is written, target/examples/run if not given; that of exceptions.c is written beside it.
# LDLIBS may name further libraries.
set -eu
[ $# -ge 1 ] || { echo "usage: examples/build.sh ARCHIVE [PROGRAM]" >&2; exit 2; }
here=$(cd "$(dirname "$0")" && pwd)
archive=$1
program=${2:-$here/../target/examples/run}
mkdir -p "$(dirname "$program")"

# build SOURCE PROGRAM: the functions of fenv.h are in the mathematical library.
build() {
    "${CC:-gcc}" -std=c99 -O2 -Wall -Wextra -Werror -pedantic -I "$here/../include" -o "$2" \
        "$here/$1" "$archive" ${LDLIBS:-} -lm
    "$2"
}
build run.c "$program"
build exceptions.c "$(dirname "$program")/exceptions"
