#!/usr/bin/env bash
# tools/library makes the archive anew after any change of the crates and after a run that did not end well, and not otherwise.
# It runs in a copy of the repository, with a command in rt's place that notes its calls and gives the archive made before.
# shellcheck source=tests/common.bash
. "$(dirname "$0")/common.bash"
need cc "a C compiler"
library >/dev/null || exit 1

export ARCHIVE=$PWD/crates/figures_c/out/libfigures_c.a CALLS=$made/calls IDENTITY=$made/identity
kit=$(dirname "$(dirname "$(readlink -f "$(command -v rt)")")")
export RATTLE_HOME=${RATTLE_HOME:-$kit}
copy=$made/copy
mkdir -p "$copy/bindings" "$made/bin"
shopt -s extglob
for crate in crates/*; do
    mkdir -p "$copy/$crate"
    cp -R "$crate"/!(out) "$copy/$crate"
done
cp -R crates.txt include tools "$copy"
cp -R bindings/carry "$copy/bindings"
echo 'the first toolchain' >"$IDENTITY"
cat >"$made/bin/rt" <<'EOT'
#!/usr/bin/env bash
if [ "$1" = version ]; then
    exec cat "$IDENTITY"
fi
echo "$(basename "$PWD"): $*" >>"$CALLS"
mkdir -p out
cp "$ARCHIVE" out/libfigures_c.a
. "$CALLS.then"
EOT
chmod +x "$made/bin/rt"
export PATH=$made/bin:$PATH

# whole FOLDER: the library is there, on x86-64 the archive itself
whole() {
    [ "$1" = "$copy/target/link" ] && [ -s "$1/libfigures_c.so" ] && [ -s "$1/libfigures_c.a" ] &&
        { [ "$(uname -m)" != x86_64 ] || cmp -s "$ARCHIVE" "$1/libfigures_c.a"; }
}

# made TIMES STATUS WHAT: tools/library calls rt so many times and ends so, with the whole library where all is well
made() {
    local times=$1 status=$2 what=$3 folder got called
    : >"$CALLS"
    folder=$(tools/limit 60 "library: $what" "$copy/tools/library" 2>"$made/said")
    got=$?
    called=$(grep -c '^figures_c: lib$' "$CALLS")
    if [ "$got" -ne "$status" ] || [ "$called" -ne "$times" ]; then
        cat "$made/said" >&2
        fail "$what: rt was called $called times, and the status was $got"
    fi
    [ "$status" -ne 0 ] || whole "$folder" || fail "$what: the library is not whole"
    : >"$CALLS.then"
}

# changed WHAT: the archive is made anew, once
changed() {
    made 1 0 "$1"
    made 0 0 "again after $1"
}

file=$copy/crates/figures/src/lib.rt
: >"$CALLS.then"
mkdir "$made/other"
printf '#!/usr/bin/env bash\necho other\n' >"$made/other/uname"
chmod +x "$made/other/uname"
PATH=$made/other:$PATH made 0 1 "a processor for which the toolchain has no part"
[ "$(cat "$made/said")" = "library: the Rattle toolchain that is installed here has no part for the processor other" ] ||
    fail "on another processor it says: $(cat "$made/said")"
changed "the first time"
echo '// one more line' >>"$file"
changed "a changed source"
echo '// another line' >>"$file"
touch -d '2 days ago' "$file"
changed "a changed source with an older time"
touch "$file"
made 0 0 "a source that is only touched"
mv "$copy/crates/rules/specs/Clock.antt" "$copy/crates/rules/specs/Hours.antt"
changed "a file with another name"
rm "$copy/crates/clock/proofs/Laws.antt"
changed "a file less"
echo >"$copy/crates/clock/specs/More.antt"
changed "a file more"
echo '# a word' >>"$copy/crates.txt"
changed "a changed crates.txt"
echo 'the second toolchain' >"$IDENTITY"
changed "another toolchain"
truncate -s 100 "$copy/crates/figures_c/out/libfigures_c.a"
changed "half an archive"
rm "$copy/crates/figures_c/out/libfigures_c.a"
changed "no archive"
rm -r "$copy/target/link"
made 0 0 "a library that was removed"
mkdir -p "$copy/crates/clock/out" "$copy/crates/clock/src/out"
echo >"$copy/crates/clock/out/kept"
made 0 0 "what rt keeps"
echo >"$copy/crates/clock/src/out/more.rt"
changed "a file in a module that is called out"

echo '// a line that is not proved' >>"$file"
echo 'exit 1' >"$CALLS.then"
made 1 1 "an rt that fails"
changed "an rt that failed"
echo '// a line more' >>"$file"
echo 'truncate -s 100 out/libfigures_c.a && kill -9 0' >"$CALLS.then"
made 1 137 "a run that is interrupted"
changed "an interrupted run"
echo '// a line at the start' >>"$file"
echo 'echo "// a line meanwhile" >>../figures/src/lib.rt' >"$CALLS.then"
made 1 0 "a source that changes meanwhile"
changed "a source that changed meanwhile"

# a run that is interrupted while it links leaves the library as it was
cp "$copy/target/link/libfigures_c.so" "$made/before.so"
cat >"$made/bin/cc" <<'EOT'
#!/usr/bin/env bash
echo half >"${!#}"
kill -9 0
EOT
chmod +x "$made/bin/cc"
made 0 137 "a run that is interrupted while it links"
cmp -s "$made/before.so" "$copy/target/link/libfigures_c.so" || fail "a run that is interrupted leaves half a library"
rm "$made/bin/cc"
made 0 0 "the run after that"
echo "tools/library makes the archive anew after every change, and only then"
