//! Lists asked about files in which more rules apply than the library keeps at a
//! time, 512: it goes through such files in rounds. Every answer follows from how
//! the file is made.

use evaluator::{DRAFT1996, RFC9309};

use crate::batch::{refused, BOTH, FREE};
use crate::batching::{check_library, list_of};
use crate::texts::{lengthened, MOST_FILE};

/// How many rules apply.
const COUNTS: [usize; 10] = [0, 1, 2, 511, 512, 513, 1_023, 1_024, 1_025, 4_000];

/// Places of rules, counted from 0, of which a file has some.
const PLACES: [usize; 13] = [
    0, 1, 255, 510, 511, 512, 513, 1_022, 1_023, 1_024, 2_047, 2_048, 3_999,
];

fn places(count: usize) -> impl Iterator<Item = usize> + Clone {
    PLACES.into_iter().filter(move |place| *place < count)
}

/// Each two places, the earlier first.
fn pairs(count: usize) -> impl Iterator<Item = (usize, usize)> {
    let each = move |one| places(count).map(move |other| (one, other));
    places(count)
        .flat_map(each)
        .filter(|(one, other)| one < other)
}

/// A file of one group for everyone, with these rules.
fn file_of(count: usize, rule: impl Fn(usize) -> String) -> Vec<u8> {
    let rules = (0..count).map(|place| format!("{}\n", rule(place)));
    format!("user-agent: *\n{}", rules.collect::<String>()).into_bytes()
}

/// The line of the rule at this place.
fn line(place: usize) -> usize {
    place + 2
}

/// The library's answers in both dialects.
fn check(file: &[u8], list: &[&str], of_rfc: &[[usize; 3]], of_draft: &[[usize; 3]]) {
    let list: Vec<&[u8]> = list.iter().map(|path| path.as_bytes()).collect();
    check_library(&list_of(RFC9309, file, &list), of_rfc);
    check_library(&list_of(DRAFT1996, file, &list), of_draft);
}

/// Each path has a rule of its own, and refused paths, /robots.txt and paths
/// without a rule stand between them.
#[test]
fn each_rule_decides() {
    for count in COUNTS {
        let file = file_of(count, |place| format!("disallow: /{place}/"));
        let mut list = Vec::new();
        let mut expected = Vec::new();
        for place in places(count) {
            let own = format!("/{place}/x");
            let others = ["", "/robots.txt", "/x", "x", "/ "].map(str::to_string);
            list.extend([own].into_iter().chain(others));
            expected.extend([[0, 1, line(place)], refused(3), FREE, FREE]);
            expected.extend([refused(4), refused(5)]);
        }
        list.push(format!("/{count}/x"));
        expected.push(FREE);
        let list: Vec<&str> = list.iter().map(String::as_str).collect();
        check(&file, &list, &expected, &expected);
    }
}

/// "the heaviest match": all rules match, and one weighs more. In the draft's
/// dialect "the first match in file order decides".
#[test]
fn one_is_heavier() {
    for count in COUNTS {
        for heavy in places(count) {
            let file = file_of(count, |place| match place == heavy {
                true => "disallow: /ab".to_string(),
                false => "allow: /a".to_string(),
            });
            let first = [0, usize::from(heavy == 0), 2];
            let of_rfc = [FREE, [0, 1, line(heavy)]];
            check(&file, &["/b", "/ab"], &of_rfc, &[FREE, first]);
        }
    }
}

/// "allow before disallow at equal weight, then the earliest line": all rules
/// match and weigh the same, and one is on the other side.
#[test]
fn one_is_on_the_other_side() {
    for count in COUNTS {
        for other in places(count) {
            let of = |others: &'static str, one: &'static str| {
                file_of(count, move |place| match place == other {
                    true => format!("{one}: /a"),
                    false => format!("{others}: /a"),
                })
            };
            let file = of("disallow", "allow");
            let first = [0, usize::from(other > 0), 2];
            check(&file, &["/a"], &[[0, 0, line(other)]], &[first]);
            let file = of("allow", "disallow");
            let of_rfc = match (other, count) {
                (0, 1) => [0, 1, 2],
                (0, _) => [0, 0, 3],
                _ => [0, 0, 2],
            };
            let first = [0, usize::from(other == 0), 2];
            check(&file, &["/a"], &[of_rfc], &[first]);
        }
    }
}

/// All rules are alike: the earliest line.
#[test]
fn all_rules_are_alike() {
    for count in COUNTS.into_iter().filter(|count| *count > 0) {
        for (side, number) in [("allow", 0), ("disallow", 1)] {
            let file = file_of(count, |_| format!("{side}: /a*"));
            let first = [0, number, 2];
            check(
                &file,
                &["/a", "/b", "/a*"],
                &[first, FREE, first],
                &[FREE, FREE, first],
            );
        }
    }
}

/// Two rules of all match, at each two places: of one weight, the earlier one
/// heavier, and the later one heavier.
#[test]
fn two_rules_match() {
    for count in [513, 1_025, 4_000] {
        for (one, other) in pairs(count) {
            for (first, second) in [("/a", "/a"), ("/ab", "/a"), ("/a", "/ab")] {
                let file = file_of(count, |place| match place {
                    place if place == one => format!("disallow: {first}"),
                    place if place == other => format!("allow: {second}"),
                    _ => "allow: /z".to_string(),
                });
                let of_rfc = match first.len() > second.len() {
                    true => [0, 1, line(one)],
                    false => [0, 0, line(other)],
                };
                let of_draft = [0, 1, line(one)];
                check(&file, &["/abc"], &[of_rfc], &[of_draft]);
            }
        }
    }
}

/// Rules of another crawler's groups, empty and unreadable ones take no part.
/// Each rule's pattern is its line.
#[test]
fn other_rules_between_them() {
    let mut file = Vec::new();
    let mut expected = Vec::new();
    let mut list = Vec::new();
    for number in 1..=2_400 {
        let (text, numbers) = match number {
            1 | 901 => ("user-agent: a\n".to_string(), FREE),
            301 => ("user-agent: *\nuser-agent: b\n".to_string(), FREE),
            302 => continue,
            303..=900 => (format!("disallow: /{number}/\n"), FREE),
            _ if number % 5 == 0 => (format!("disallow: {number}/\n"), FREE),
            _ if number % 7 == 0 => ("disallow:\n".to_string(), FREE),
            _ => (format!("disallow: /{number}/\n"), [0, 1, number]),
        };
        file.extend(text.into_bytes());
        list.push(format!("/{number}/"));
        expected.push(numbers);
    }
    let list: Vec<&str> = list.iter().map(String::as_str).collect();
    check(&file, &list, &expected, &expected);
}

/// As many rules as a file can have.
#[test]
fn the_most_rules() {
    // 63,997 rules of 8 octets behind 13, and the last of 11
    let head = b"user-agent:*\n";
    let file = lengthened(head, b"allow:/\n", b"\ndisallow:/x", MOST_FILE);
    let last = [0, 1, 63_999];
    let first = [0, 0, 2];
    let list = ["/x", "", "/y", "/robots.txt", "/x%", "x"];
    let of_rfc = [last, refused(3), first, FREE, last, refused(4)];
    let of_draft = [first, refused(3), first, FREE, first, refused(4)];
    check(&file, &list, &of_rfc, &of_draft);
    for dialect in BOTH {
        check_library(&list_of(dialect, &file, &[]), &[]);
    }
}
