# shellcheck shell=bash
# What the scripts of this folder share: where they run, a folder for what they make, and steps that end by a time limit.
set -u
cd "$(dirname "$0")/.." || exit 1
# where Rust's installer puts its commands, since not every shell looks there
export PATH=$PATH:${CARGO_HOME:-~/.cargo}/bin
script=$(basename "$0" .sh)
made=$(mktemp -d) || exit 1
trap 'rm -rf "$made"' EXIT

fail() {
    echo "$script: $*" >&2
    exit 1
}

# need COMMAND WHAT: the command is on the PATH
need() {
    command -v "$1" >/dev/null 2>&1 || fail "the command $1 is missing here: install $2"
}

# quiet SECONDS WHAT COMMAND..: the command passes in time; what it says is shown only where it does not
quiet() {
    local seconds=$1 what=$2
    shift 2
    tools/limit "$seconds" "$script: $what" "$@" >"$made/said" 2>&1 || { cat "$made/said" >&2 && fail "$what failed"; }
}

# prints SECONDS WHAT STORED COMMAND..: the command passes in time and prints the stored lines
prints() {
    local seconds=$1 what=$2 stored=$3
    shift 3
    tools/limit "$seconds" "$script: $what" "$@" >"$made/printed" 2>"$made/said" ||
        { cat "$made/said" >&2 && fail "$what failed"; }
    diff "$stored" "$made/printed" >&2 || fail "$what does not print what $stored has"
}

# prints the folder of the library, which is proved and made first where the sources changed
library() {
    tools/limit 1800 "$script: tools/library" tools/library 2>"$made/said" ||
        { cat "$made/said" >&2 && fail "tools/library failed"; }
}
