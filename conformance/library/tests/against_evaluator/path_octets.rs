//! Every octet in every part of a path.

use crate::ask::{check_path, each_between, each_two_between};

/// Checks the paths that have each octet between these two parts.
fn check_between(before: &[u8], after: &[u8]) {
    each_between(before, after, check_path);
}

/// Checks the paths that have each two octets between these two parts.
fn check_two_between(before: &[u8], after: &[u8]) {
    each_two_between(before, after, check_path);
}

#[test]
fn alone_and_first() {
    check_path(b"");
    check_between(b"", b"");
    check_between(b"", b"/a");
    check_between(b"", b"a");
}

#[test]
fn inside_and_last() {
    check_between(b"/", b"");
    check_between(b"/", b"a");
    check_between(b"/ab", b"cd");
    check_between(b"/ab", b"");
    check_two_between(b"/", b"");
}

/// Two octets behind "%", at the end of the path and inside it.
#[test]
fn both_digits_of_an_escape() {
    check_two_between(b"/%", b"");
    check_two_between(b"/%", b"b");
    check_two_between(b"/a%", b"/b");
}

/// Octets that could be taken for digits of an escape before or behind.
#[test]
fn around_an_escape() {
    check_two_between(b"/%%", b"");
    check_between(b"/%", b"%41");
    check_between(b"/%4", b"%41");
    check_between(b"/%41", b"");
    check_between(b"/%2F", b"41");
    check_between(b"/", b"%41");
}

#[test]
fn escapes_cut_short() {
    for end in ["%", "%4", "%F", "%g", "%%", "%%4", "%4%", "%41%", "%41%4"] {
        check_path(format!("/{end}").as_bytes());
        check_path(format!("/a/b{end}").as_bytes());
    }
    check_between(b"/%", b"");
    check_between(b"/%41%", b"");
}
