#!/bin/sh
# Proves and builds programs, all of them or those that are named: each then stands in crates/NAME/out/NAME. Needs rt.
set -eu
cd "$(dirname "$0")/.."
[ $# -gt 0 ] || set -- headers send receive trial
for program; do
    (cd "crates/$program" && rt check && rt run < /dev/null) > /dev/null 2>&1 || {
        echo "$program was not proved and built: rt check in crates/$program says why" >&2
        exit 1
    }
done
