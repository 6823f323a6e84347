#!/usr/bin/env bash
# The header, the wrappers, the carried calls and the crates have the same constants, arguments and refusals.
# shellcheck source=tests/common.bash
. "$(dirname "$0")/common.bash"
need python3 "Python 3.8 or newer"
tools/limit 60 "interface: the comparison" python3 -B -W error tests/interface/compare.py
