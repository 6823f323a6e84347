#!/usr/bin/env bash
# The library that carries each call to a host, as on another processor than x86-64: it answers as the archive does, after a
# fork too, and where the host is gone it says so and ends. On x86-64 it is made here, with a host of this processor.
# shellcheck source=tests/common.bash
. "$(dirname "$0")/common.bash"
need cc "a C compiler"
need rustc "Rust 1.70 or newer"
need python3 "Python 3.8 or newer"
# a program that ends by abort leaves no core file
ulimit -c 0

unset FIGURES_HOST
link=$(library) || exit 1
HOST=$link/start-host
compile=(cc -O2 -Wall -Wextra -Werror -pthread -I include)
if [ "$(uname -m)" = x86_64 ]; then
    carry=bindings/carry
    HOST=$made/host
    quiet 60 "building the host" "${compile[@]}" -nostdinc -I $carry/bare $carry/host.c "$link/libfigures_c.a" -o "$HOST"
    quiet 60 "building the calls" "${compile[@]}" -fPIC "-DFIGURES_HOST=\"$HOST\"" -c $carry/carry.c -o "$made/carry.o"
    quiet 60 "making the archive" ar rcs "$made/libfigures_c.a" "$made/carry.o"
    quiet 60 "making the shared object" cc -shared -pthread "$made/carry.o" -o "$made/libfigures_c.so"
    link=$made
fi
ASKS=$made/asks
export HOST ASKS FIGURES_LIBRARY=$link

quiet 60 "building asks.c" "${compile[@]}" tests/carry/asks.c "$link/libfigures_c.a" -o "$ASKS"
quiet 300 "the tests of the host" python3 -B -W error tests/carry/test_carry.py
echo "a carried call after a fork is right, and without a host the caller says so and ends"

quiet 120 "the Python tests" python3 -B -W error bindings/python/test_figures.py
quiet 300 "building the second program" rustc --edition 2021 -L "$link" tests/second/main.rs -o "$made/second"
quiet 300 "the second program" "$made/second" --asks 3000
echo "carried calls answer as the second program does"
