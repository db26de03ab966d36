# Read by the gate's scripts, at the repository's root: the search path, and how a step fails.
set -u

# rustup's own folder may be missing from the search path
PATH="$PATH:${CARGO_HOME:-${HOME:-}/.cargo}/bin"

fail() {
    echo "${0##*/}: failed: $1"
    exit 1
}

no_arguments() { # COUNT COMMAND
    [ "$1" -eq 0 ] || { echo "${0##*/}: it takes no arguments: run $2" >&2; exit 2; }
}

# the names of crates.txt, in whose lines more words may stand between name and colon
crates_listed() {
    sed -n 's/^\([a-z0-9_]*\)\( [^:#]*\)\{0,1\}:.*/\1/p' crates.txt
}
