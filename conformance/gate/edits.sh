#!/bin/sh
# What the refusals of must-fail edits rest on. Given a file with what 'rt ci' or 'rt must-fail' printed, and the crates
# whose edits were tried (none: all), it fails where an edit wasn't refused, and where its refusal shows nothing: where
# the edited text can't be read or the edited definition is ill-formed, where a proof only names what the edit took
# away, and where the prover only met a limit of its own.
cd "$(dirname "$0")/../.." && . conformance/gate/common.sh || exit 2
[ $# -ge 1 ] && [ -r "$1" ] ||
    { echo "edits.sh: give it the file with what rt ci or rt must-fail printed" >&2; exit 2; }
said=$1
shift
[ $# -gt 0 ] || set -- $(crates_listed)

# refuse_if PATTERN WHY: no line of what rt said may be so
refuse_if() {
    if grep -E "$1" "$said"; then
        fail "a must-fail edit $2; see the lines above"
    fi
}
# rt ci passes an edit that can't be applied or read, and counts it on its line 'rt: ok'
refuse_if '^rt: .*BAD EDIT: ' 'is bad, so it shows nothing'
refuse_if '^rt: ok; .*, [0-9]+ bad' 'is bad, so it shows nothing'
refuse_if '^rt: must-fail [^ ]*: (NOT |[^r])' 'is not refused'
refuse_if '^rt: must-fail .*\(only by a limit' 'only met a limit of the prover'
refuse_if '^rt: must-fail .*\(only because a proof file names' 'only makes a proof unfit for the code'
# what stands first of what the prover said
refused='^rt: must-fail [^ ]*: refused, as it must be'
refuse_if "$refused: (note: )?(\./)?specs/" 'is ill-formed'
unfit='only makes a proof unfit for the code'
refuse_if "$refused.*(that can be named from here|has no field|is not in scope)" "$unfit"
refuse_if "$refused.*declarations? that depends? on" "$unfit"

tried=0
for crate in "$@"; do
    for edit in "crates/$crate/must-fail/"*.edit; do
        [ -e "$edit" ] || continue
        tried=$((tried + 1))
        grep -Fq "rt: must-fail $crate/${edit##*/}: refused, as it must be: " "$said" ||
            fail "$edit: nothing was said of it, or rt writes its lines otherwise"
    done
done
[ "$tried" -gt 0 ] || fail "there is no must-fail edit"
if count=$(sed -n 's/^rt: ok; .*must-fail edits: \([0-9]*\) refused.*/\1/p' "$said") && [ -n "$count" ]; then
    [ "$count" -eq "$tried" ] || fail "rt ci counts $count must-fail edits, and there are $tried"
fi
