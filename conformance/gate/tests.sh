#!/bin/sh
# What is tested once every crate is proved: make install, the header against the library, the tests in Rust, the
# bindings, the library linked from C and from C++, the header's program, the examples in C and the README's command.
# Stops at the first step that fails. test.sh and 'make quick' end with it.
cd "$(dirname "$0")/../.." && . conformance/gate/common.sh || exit 2
no_arguments $# "'sh conformance/gate/tests.sh'"

room=$(mktemp -d) || fail "mktemp -d: set TMPDIR to a folder that can be written"
trap 'rm -rf "$room"' EXIT

# what an outer make was told isn't meant for this one
archive=crates/robots/out/librobots.a
prefix=$room/prefix
unset MAKEFLAGS MFLAGS MAKELEVEL
make install PREFIX="$prefix" DESTDIR= ||
    fail "make install: see the first line above that isn't 'proved', or its message"
"$prefix/bin/robots_decide" <crates/robots_decide/stdin | cmp - crates/robots_decide/stdout ||
    fail "make install: the installed robots_decide answers otherwise"

sed -n 's/^size_t \(robots_[a-z_]*\)(.*/\1/p' include/robots.h | sort >"$room/declared"
# exported_alike LIBRARY NM-OPTION
exported_alike() {
    nm "$2" --defined-only "$1" | sed -n 's/^[0-9a-f]* T //p' | sort >"$room/exported"
    diff "$room/exported" "$room/declared" ||
        fail "include/robots.h: declare what $1 exports (< exported only, > declared only)"
}
exported_alike "$archive" -g
exported_alike target/shared/librobots.so -D

cargo test --manifest-path conformance/Cargo.toml --workspace --offline --locked || fail "cargo test in conformance/"
cargo test --manifest-path bindings/rust/Cargo.toml --offline --locked || fail "cargo test in bindings/rust/"
sh conformance/script/test.sh || fail "conformance/script/test.sh: see the failed checks above"

# -B: leave no compiled file behind
ROBOTS_LIBRARY='' python3 -B bindings/python/test_robots.py ||
    fail "bindings/python/test_robots.py: see the failed tests above"

# compiled SOURCE NAME FLAG...: as C to target/link-test/NAME and as C++ to target/link-test/NAME-c++, as the header
# serves both
warnings='-Wall -Wextra -Wpedantic -Werror'
compiled() {
    source=$1
    output=target/link-test/$2
    shift 2
    gcc -std=c11 $warnings "$source" "$@" -o "$output" || fail "gcc on $source: see its messages above"
    g++ -std=c++11 $warnings "$source" "$@" -o "$output-c++" || fail "g++ on $source: see its messages above"
}
mkdir -p target/link-test || fail "mkdir -p target/link-test"

compiled conformance/c/link.c checks -Iinclude "$archive"
for program in checks checks-c++; do
    "target/link-test/$program" || fail "target/link-test/$program: see the failed checks above"
done

# the header's program, compiled as a caller of the installed library does: with what pkg-config says, or what it would
# read
installed_flags() {
    if command -v pkg-config >/dev/null; then
        PKG_CONFIG_PATH="$prefix/lib/pkgconfig" pkg-config --cflags --libs robots
    else
        named=$(sed -n 's/^prefix=//p' "$prefix/lib/pkgconfig/robots.pc")
        sed -n -e "s|\${prefix}|$named|" -e 's/^Cflags: //p' -e 's/^Libs: //p' "$prefix/lib/pkgconfig/robots.pc"
    fi
}
flags=$(installed_flags) && [ -n "$flags" ] || fail "robots.pc.in: the installed robots.pc gives no flags"
sed -n 's/^ \*     //p' include/robots.h >target/link-test/header.c
compiled target/link-test/header.c header $flags
for program in header header-c++; do
    printed=$("target/link-test/$program")
    [ $? -eq 1 ] && [ "$printed" = disallow ] ||
        fail "include/robots.h: its program, target/link-test/$program, printed '$printed'"
done

for example in examples/*.c; do
    compiled "$example" "$(basename "$example" .c)" -Iinclude "$archive"
done

# examples/link.c closes its example's path, and opens nothing for a file that can't be read
printed=$(target/link-test/link)
[ $? -eq 1 ] && [ "$printed" = 'disallow, by line 2: /sailings/draft' ] ||
    fail "target/link-test/link printed '$printed'"
printed=$(target/link-test/link drydockbot / target/link-test 2>&1)
[ $? -eq 2 ] || fail "target/link-test/link, given a folder as its file, printed '$printed'"

# examples/batch.c tells of each path of its example, and opens nothing for a name that is refused or a file that can't
# be read
expected='disallow, by line 2: /sailings/draft/9
allow, by line 3: /sailings/9
allow, by no rule: /harbour
disallow, refused 4: sailings/9'
printed=$(target/link-test/batch)
[ $? -eq 1 ] && [ "$printed" = "$expected" ] || fail "target/link-test/batch printed '$printed'"
printed=$(target/link-test/batch drydockbot examples/robots.txt /sailings/9)
[ $? -eq 0 ] && [ "$printed" = 'allow, by line 3: /sailings/9' ] ||
    fail "target/link-test/batch, given one path, printed '$printed'"
printed=$(target/link-test/batch 'no name' examples/robots.txt / 2>/dev/null)
[ $? -eq 2 ] && [ -z "$printed" ] || fail "target/link-test/batch, given a bad name, printed '$printed'"
printed=$(target/link-test/batch drydockbot target/link-test / 2>/dev/null)
[ $? -eq 2 ] && [ -z "$printed" ] || fail "target/link-test/batch, given a folder as its file, printed '$printed'"

# README.md, 'See it work': its command prints what stands there
told() { sed -n '/^## See it work/,/^## /s/^    //p' README.md; }
printed=$(sh -c "$(told | head -n 1)" | tail -n 1)
[ -n "$printed" ] && [ "$printed" = "$(told | tail -n 1)" ] ||
    fail "README.md, 'See it work': its command printed '$printed'"

# docs/ORDER.md, 'An example': its two commands, which have blank lines in them, print what stands there
for part in Before After; do
    told() { sed -n "/^### $part/,/^##/{s/^    //p;/^\$/p}" docs/ORDER.md; }
    printed=$(sh -c "$(told | sed -n '/^bin/,/^END/p')")
    [ -n "$printed" ] && [ "$printed" = "$(told | sed '/^$/d' | tail -n 1)" ] ||
        fail "docs/ORDER.md, 'An example': the command under '$part' printed '$printed'"
done
