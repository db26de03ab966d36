#!/bin/sh
# What can be said of the sources before anything is proved: the tools are there, header, bindings and scripts have the
# exported functions and the refusals, and the docs name what is there. That the files are in rt's layout is held by
# rt ci and by rt all test. test.sh and 'make quick' begin with it.
cd "$(dirname "$0")/../.." && . conformance/gate/common.sh || exit 2
no_arguments $# "'sh conformance/gate/sources.sh'"

for tool in rt make gcc g++ nm cargo python3; do
    command -v "$tool" >/dev/null || fail "$tool is not installed; see README.md, 'What you need'"
done

# each script, and then files in which it has to find something; -B: leave no compiled file behind
for script in interface interface_test docs docs_test; do
    python3 -B "conformance/gate/$script.py" || fail "conformance/gate/$script.py: see the lines above"
done
