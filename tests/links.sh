#!/usr/bin/env bash
# Programs in C, C++, Rust and Python link the figures as tools/library makes them ready, and print what is stored beside them.
# shellcheck source=tests/common.bash
. "$(dirname "$0")/common.bash"
need cc "a C compiler"
need c++ "a C++ compiler"
need cargo "Rust 1.70 or newer"
need python3 "Python 3.8 or newer"

unset FIGURES_HOST
link=$(library) || exit 1
export FIGURES_LIBRARY=$link
if [ "$(uname -m)" = x86_64 ]; then
    how="linked with the archive"
else
    how="each call carried to an x86-64 host that has the archive"
fi

strict=(-Wall -Wextra -pedantic -Werror -I include)
example=(bindings/c/example.c -x none "$link/libfigures_c.a" -pthread)
quiet 60 "the header in C" cc -std=c99 "${strict[@]}" -fsyntax-only -x c include/figures.h
quiet 60 "the header in C++" c++ -std=c++11 "${strict[@]}" -fsyntax-only -x c++ include/figures.h
quiet 60 "building the C program" cc -std=c99 "${strict[@]}" -x c "${example[@]}" -o "$made/c"
quiet 60 "building the C program as C++" c++ -std=c++11 "${strict[@]}" -x c++ "${example[@]}" -o "$made/c++"
prints 60 "the C program" bindings/c/example.out "$made/c"
prints 60 "the C program as C++" bindings/c/example.out "$made/c++"
echo "the C program prints what it must, $how"

export RUSTFLAGS="-D warnings"
# cargo, from the package's folder, where its settings are
rust=(bash -c 'cd bindings/rust && exec cargo "$@" --offline --locked --quiet' cargo)
quiet 300 "cargo test" "${rust[@]}" test
prints 300 "the Rust program" bindings/rust/examples/day_d.out "${rust[@]}" run --example day_d
echo "the Rust program prints what it must, and cargo test passes"

# with Python's own checks of memory
quiet 120 "the Python tests" python3 -X dev -B -W error bindings/python/test_figures.py
prints 60 "the Python program" bindings/python/example.out python3 -X dev -B -W error bindings/python/example.py
echo "the Python program prints what it must over the shared object, and its tests pass"

# without FIGURES_LIBRARY both find the folder of tools/library
apart=(env -u FIGURES_LIBRARY CARGO_TARGET_DIR="$made/cargo")
prints 300 "the Rust program by itself" bindings/rust/examples/day_d.out "${apart[@]}" "${rust[@]}" run --example day_d
prints 60 "the Python program by itself" bindings/python/example.out "${apart[@]}" python3 -B bindings/python/example.py

# without WHAT FILE COMMAND..: where there is no library the command fails, and names the file that is missing
without() {
    local what=$1 text="$2 is missing: run tools/library, or give its folder as FIGURES_LIBRARY"
    shift 2
    tools/limit 60 "links: $what" env FIGURES_LIBRARY=/missing "$@" >"$made/said" 2>&1 && fail "$what needs no library"
    grep -qF "$text" "$made/said" || { cat "$made/said" >&2 && fail "$what does not say that the library is missing"; }
}
without "the Python program" /missing/libfigures_c.so python3 -B bindings/python/example.py
without "cargo build" /missing/libfigures_c.a env CARGO_TARGET_DIR="$made/cargo" "${rust[@]}" build
echo "the two find the library by themselves, and where there is none they say which file is missing"
