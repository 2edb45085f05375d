#!/bin/sh
# Checks a crate and prints its errors shortly: check.sh CRATE [rt check's flags]
cd "$(dirname "$0")/../../crates/$1" || exit 2
name=$1; shift
rt check "$@" > /tmp/check-$name.log 2>&1
grep -vE '^(so far|checked|enum|struct|impl|trait|const|statements|fn .*: proved|library|logic /|crate )' /tmp/check-$name.log | cut -c1-${WIDTH:-700}
