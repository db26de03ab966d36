#!/bin/sh
# Tries the must-fail edits of one crate: 'make must-fail CRATE=walk'. An edit of which nothing has changed since an
# earlier run is not tried again.
cd "$(dirname "$0")/../.." && . conformance/gate/common.sh || exit 2

wrong() {
    echo "must-fail.sh: $1" >&2
    exit 2
}

crate=${1-}
listed=$(crates_listed)
all=$(echo $listed)
[ $# -eq 1 ] && [ -n "$crate" ] || wrong "give it a crate, as in 'make must-fail CRATE=walk'; there are: $all"
echo "$listed" | grep -Fqx -e "$crate" || wrong "crates.txt lists no crate '$crate': give it one of: $all"
[ -n "$(find "crates/$crate" -path '*/must-fail/*.edit')" ] ||
    wrong "there are no edits in crates/$crate/must-fail/: give it another crate, or write one"

room=$(mktemp -d) || fail "mktemp -d: set TMPDIR to a folder that can be written"
trap 'rm -rf "$room"' EXIT

# of a crate that isn't proved, every edit would be refused
(cd "crates/$crate" && rt check) || fail "rt check in crates/$crate: it is not proved, so its edits show nothing"
{ rt must-fail "$crate" 2>&1; echo $? >"$room/status"; } | tee "$room/said"
[ "$(cat "$room/status")" = 0 ] ||
    fail "rt must-fail $crate: an edit was not refused; see the lines above"
sh conformance/gate/edits.sh "$room/said" "$crate" || exit 1
refused=$(sed -n "s|^rt: must-fail $crate/\([^ ]*\)\.edit: refused.*|\1|p" "$room/said")
echo "must-fail.sh: refused, as they must be:" $refused
