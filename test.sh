#!/bin/sh
# Runs every test: what can be said of the sources, rt ci (every crate proved, every must-fail edit refused, every
# program run), what the refusals of the edits rest on, and the tests of what is built. Stops at the first step that
# fails. The last line is rt ci's own, printed only if every step passed.
cd "$(dirname "$0")" && . conformance/gate/common.sh || exit 2
no_arguments $# ./test.sh

sh conformance/gate/sources.sh || exit 1

logs=$(mktemp -d) || fail "mktemp -d: set TMPDIR to a folder that can be written"
trap 'rm -rf "$logs"' EXIT
# the verdict, rt ci's last line, is held back until everything has passed
{ rt ci 2>&1; echo $? >"$logs/status"; } | tee "$logs/ci" | sed '$d'
verdict=$(tail -n 1 "$logs/ci")
[ "$(cat "$logs/status")" = 0 ] || fail "rt ci: $verdict"
echo "$verdict" | grep -Eqx '[0-9]+ passed, 0 failed' || fail "rt ci: $verdict"

sh conformance/gate/edits.sh "$logs/ci" || exit 1

# rt ci moves away what was built, so the library is built after it
sh conformance/gate/tests.sh || exit 1

echo "$verdict"
