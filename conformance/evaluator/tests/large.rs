//! Files just inside the limit, with counts worked out by hand.

use evaluator::{decide, Decision};

const MOST_OCTETS: usize = 512_000;
const HEAD: &[u8] = b"user-agent:*\n";

/// The head and as many of the line as fit; the rest is comment.
fn filled(line: &[u8]) -> (Vec<u8>, usize) {
    let times = (MOST_OCTETS - HEAD.len()) / line.len();
    let mut file = [HEAD, &line.repeat(times)].concat();
    file.resize(MOST_OCTETS, b'#');
    (file, times)
}

fn path_of(length: usize, octet: u8) -> Vec<u8> {
    let mut path = vec![octet; length];
    path[0] = b'/';
    path
}

#[test]
fn one_pattern_fills_the_file() {
    // Only a "/" before the stars is compared.
    for (first, compared) in [(b"/", 1), (b"*", 0)] {
        let mut file = [HEAD, b"disallow:", first].concat();
        file.resize(MOST_OCTETS, b'*');
        for path in [b"/".to_vec(), path_of(2_048, b'%')] {
            assert_eq!(
                decide(&file, b"a", &path),
                Decision {
                    refusal: 0,
                    disallow: true,
                    line: 2,
                    place: 22,
                    length: 511_978,
                    unread: 0,
                    compared,
                }
            );
        }
    }
}

#[test]
fn as_many_rules_as_fit() {
    let (file, times) = filled(b"disallow:/\n");
    assert_eq!(times, 46_544);
    assert_eq!(
        decide(&file, b"a", b"/x"),
        Decision {
            refusal: 0,
            disallow: true,
            line: 2,
            place: 22,
            length: 1,
            unread: 0,
            compared: 46_544,
        }
    );
}

#[test]
fn as_many_unreadable_lines_as_fit() {
    let (file, times) = filled(b"allow:x\n");
    let decision = decide(&file, b"a", b"/");
    assert_eq!((decision.disallow, decision.unread), (false, times));
    assert_eq!(decision.compared, 0);
}

#[test]
fn as_many_lines_as_fit() {
    let mut file = vec![b'\n'; MOST_OCTETS];
    let tail = b"user-agent:a\ndisallow:/";
    let at = MOST_OCTETS - tail.len();
    file[at..].copy_from_slice(tail);
    let decision = decide(&file, b"a", b"/");
    // Each LF before the tail ends a line.
    assert_eq!((decision.disallow, decision.line), (true, at + 2));
    assert_eq!(decision.place, MOST_OCTETS - 1);
}

#[test]
fn dear_rules() {
    // As many tries as can be made, for the path "/aaa...". Behind a first star
    // the run is tried at 0 too: one pair, as many as the "/" costs.
    for (first, rules) in [(b"/*".as_slice(), 493), (b"*", 494)] {
        let line = [b"disallow:", first, &[b'a'; 1_024], b"b\n"].concat();
        let (file, times) = filled(&line);
        assert_eq!(times, rules);
        let decision = decide(&file, b"a", &path_of(2_048, b'a'));
        assert!(!decision.disallow);
        assert_eq!(decision.compared, rules * (1 + 1_023 * 1_025));
    }
}

#[test]
fn dear_rules_for_the_longest_path() {
    // Stars and escapes: "/" 1, then "5" three tries each, 2,000 times.
    let line = [b"allow:/".as_slice(), &b"*5".repeat(2_000), b"\n"].concat();
    let (file, times) = filled(&line);
    assert_eq!(times, 127);
    let decision = decide(&file, b"a", &path_of(2_048, b'%'));
    assert_eq!((decision.disallow, decision.line), (false, 2));
    assert_eq!(decision.compared, 127 * (1 + 2_000 * 3));
}
