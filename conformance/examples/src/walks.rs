//! Walks with counts worked out by hand from document 01's sentences.

use std::fmt;

use crate::long_walks::long_groups;
use crate::Matched;

/// One walk, with its answer.
#[derive(Debug, Clone, PartialEq, Eq)]
pub struct WalkRow {
    /// The name of the sentence, or of what else the row shows.
    pub group: &'static str,
    pub pattern: Vec<u8>,
    pub path: Vec<u8>,
    pub expected: Matched,
}

/// Group, pattern and path, for a message; the beginning of long ones.
impl fmt::Display for WalkRow {
    fn fmt(&self, out: &mut fmt::Formatter<'_>) -> fmt::Result {
        let [pattern, path] = [&self.pattern, &self.path].map(|it| it.escape_ascii().to_string());
        write!(out, "{}: ", self.group)?;
        write!(out, "pattern {pattern:.2100} and path {path:.2100}")
    }
}

/// Pattern, path, whether it matches, and the pairs compared.
pub(crate) type Row<T> = (T, T, bool, usize);
type Short = Row<&'static [u8]>;

/// Every walk, group after group.
pub fn walk_rows() -> Vec<WalkRow> {
    let mut walks = Vec::new();
    for (group, rows) in SHORT_GROUPS {
        walks.extend(rows.iter().map(|row| walk(group, *row)));
    }
    for (group, rows) in long_groups() {
        walks.extend(rows.into_iter().map(|row| walk(group, row)));
    }
    walks
}

fn walk<T: Into<Vec<u8>>>(group: &'static str, row: Row<T>) -> WalkRow {
    let (pattern, path, found, compared) = row;
    WalkRow {
        group,
        pattern: pattern.into(),
        path: path.into(),
        expected: Matched {
            refusal: 0,
            found,
            compared,
        },
    }
}

const SHORT_GROUPS: [(&str, &[Short]); 15] = [
    ("the rules of document 01's examples", RULES_OF_EXAMPLES),
    ("the first run", FIRST_RUN),
    ("one try", ONE_TRY),
    ("later runs", LATER_RUNS),
    ("tries past the end", TRIES_PAST_THE_END),
    ("runs after a failed one", RUNS_AFTER_A_FAILED_ONE),
    ("empty runs", EMPTY_RUNS),
    ("the last run with an end mark", LAST_RUN_WITH_AN_END_MARK),
    ("one run with an end mark", ONE_RUN_WITH_AN_END_MARK),
    ("dollars", DOLLARS),
    ("escapes cut by stars", ESCAPES_CUT_BY_STARS),
    ("stars that stop inside an escape", STOPS_INSIDE_AN_ESCAPE),
    ("spellings", SPELLINGS),
    ("the file's own path", OWN_PATH),
    ("patterns that begin with a star", STAR_FIRST),
];

/// Document 01's table with M-102's row, and its program, each rule by itself.
const RULES_OF_EXAMPLES: &[Short] = &[
    (b"/", b"/x", true, 1),
    (b"/p", b"/page", true, 2),
    (b"/folder", b"/folder/page", true, 7),
    (b"/page", b"/page.htm", true, 5),
    // "/" 1; ".htm" at 1 to 4 costs 1 each, at 5 it costs 4
    (b"/*.htm", b"/page.htm", true, 9),
    // "/" 1; ".php" only at 14 - 4 = 10, where "p" stands
    (b"/*.php$", b"/filename.php5", false, 2),
    (b"/path/foo-%24", b"/path/foo-$", true, 13),
    (b"/sailings/draft", b"/sailings/draft/9", true, 15),
    (b"/sailings", b"/sailings/draft/9", true, 9),
    // ".gif" only at 6 - 4 = 2
    (b"*.gif$", b"/x.gif", true, 4),
];

/// "The first run is tried at 0 only."
const FIRST_RUN: &[Short] = &[
    (b"/", b"/", true, 1),
    (b"/ab", b"/abc", true, 3),
    (b"/a", b"/b/a", false, 2),
    (b"/ab", b"/aab", false, 3),
    (b"/a*b", b"/b/ab", false, 2),
    (b"//", b"/a//", false, 2),
];

/// "A try compares left to right, stops at the first difference, and each
/// pair compared counts 1."
const ONE_TRY: &[Short] = &[
    (b"/ab", b"/xb", false, 2),
    (b"/ab", b"/ax", false, 3),
    (b"/abc", b"/xbc", false, 2),
    (b"/abc", b"/axc", false, 3),
    (b"/abc", b"/abx", false, 4),
    (b"/abc", b"/abc", true, 4),
    // letter case is kept
    (b"/A", b"/a", false, 2),
];

/// "Each later run is tried at the end of the run before it, then one further
/// each time, until it stands."
const LATER_RUNS: &[Short] = &[
    // "/" 1; "a" at 1 and 2; "b" at 3 and 4
    (b"/*a*b", b"/xaxb", true, 5),
    // "/" 1; "ab" at 1 costs 2, at 2 costs 2
    (b"/*ab", b"/aab", true, 5),
    // "/" 1; "b" at 1 and 2; "bc" at 3 costs 1, at 4 costs 2
    (b"/*b*bc", b"/abxbc", true, 6),
    // "/aa" 3; "aa" at 3
    (b"/aa*aa", b"/aaaa", true, 5),
    // "/aa" 3; "aa" at 3 would pass the end, and isn't tried at 2
    (b"/aa*aa", b"/aaa", false, 3),
    // "/" 1; "a" at 1 stands and stays; "ab" at 2 costs 1, at 3 costs 2
    (b"/*a*ab", b"/abab", true, 5),
    // "/" 1; "aab" at 1 costs 3, at 2 costs 3, at 3 it would pass
    (b"/*aab", b"/aaac", false, 7),
];

/// "A try that would pass p fails the rule at no cost."
const TRIES_PAST_THE_END: &[Short] = &[
    (b"/a", b"/", false, 0),
    (b"/abc", b"/ab", false, 0),
    (b"/xyz", b"/ab", false, 0),
    // "/" 1; "ab" at 1 would pass
    (b"/*ab", b"/a", false, 1),
    // "/" 1; "ab" at 1 costs 2, at 2 it would pass
    (b"/*ab", b"/aa", false, 3),
    // "/" 1; "b" at 1, 2 and 3
    (b"/*b", b"/aaa", false, 4),
    // "/ab" 3; "c" at 3 would pass
    (b"/ab*c", b"/ab", false, 3),
];

/// "After the first failed run the rule is done."
const RUNS_AFTER_A_FAILED_ONE: &[Short] = &[
    (b"/x*a", b"/aaa", false, 2),
    // "/" 1; "x" at 1 and 2
    (b"/*x*a", b"/aa", false, 3),
    (b"/*x*$", b"/aa", false, 3),
    (b"/*abc*a*a", b"/ab", false, 1),
];

/// "an empty one costs nothing"
const EMPTY_RUNS: &[Short] = &[
    (b"/*", b"/", true, 1),
    (b"/*", b"/xyz", true, 1),
    (b"/**", b"/x", true, 1),
    (b"/a*", b"/a", true, 2),
    (b"/a*", b"/", false, 0),
    (b"/*a", b"/a", true, 2),
    (b"/*a*", b"/ba", true, 3),
    (b"/**a**", b"/ba", true, 3),
    (b"/**x", b"/yx", true, 3),
    (b"/***x", b"/yx", true, 3),
    (b"/a***b", b"/ab", true, 3),
];

/// "with an end mark, the last run has one possible start, p less its
/// length. It fails at no cost if that start is under 0 or under the end of
/// the run before"
const LAST_RUN_WITH_AN_END_MARK: &[Short] = &[
    // "/" 1; ".php" only at 2
    (b"/*.php$", b"/x.php", true, 5),
    (b"/*.php$", b"/x.phq", false, 5),
    (b"/*.php$", b"/xxphp", false, 2),
    // "/" 1; ".php" only at 5 - 4 = 1, where "f" stands
    (b"/*.php$", b"/file", false, 2),
    // start under 0
    (b"/*.php$", b"/x", false, 1),
    // start under the end of the run before
    (b"/a*a$", b"/a", false, 2),
    (b"/ab*b$", b"/ab", false, 3),
    (b"/*ab*b$", b"/ab", false, 3),
    // start just at the end of the run before
    (b"/a*a$", b"/aa", true, 3),
    // "/" 1; "b" only at 4
    (b"/*b$", b"/abab", true, 2),
    // "/" 1; "b" at 1 and 2; "c" only at 4
    (b"/*b*c$", b"/abbc", true, 4),
    // "/" 1; "b" at 1 and 2; "bc" only at 3
    (b"/*b*bc$", b"/abbc", true, 5),
    // an empty last run starts at p
    (b"/*$", b"/", true, 1),
    (b"/*$", b"/xyz", true, 1),
    (b"/a*$", b"/a", true, 2),
    (b"/a*$", b"/abc", true, 2),
    (b"/a*$", b"/b", false, 2),
    (b"/a**$", b"/ab", true, 2),
    (b"/x**$", b"/y", false, 2),
];

/// "or, for a run that is also the first, not 0"
const ONE_RUN_WITH_AN_END_MARK: &[Short] = &[
    (b"/$", b"/", true, 1),
    (b"/$", b"/x", false, 0),
    (b"/$", b"//", false, 0),
    (b"/ab$", b"/ab", true, 3),
    (b"/ab$", b"/ax", false, 3),
    (b"/ab$", b"/abc", false, 0),
    (b"/ab$", b"/a", false, 0),
    (b"/b$", b"/b/b", false, 0),
];

/// "a "$" as its last raw octet is the end mark, and the part before it is
/// normalised by itself; another "$" becomes %24"
const DOLLARS: &[Short] = &[
    // the pattern is "/a%24b"
    (b"/a$b", b"/a$b", true, 6),
    (b"/a$b", b"/a%24bc", true, 6),
    (b"/a$b", b"/ab", false, 0),
    (b"/a$b", b"/a", false, 0),
    (b"/$a", b"/$a", true, 5),
    (b"/$*", b"/$x", true, 4),
    // "/" 1; "%24" at 1 costs 1, at 2 costs 3
    (b"/*$*", b"/a$", true, 5),
    // "/a%24" and an end mark
    (b"/a$$", b"/a$", true, 5),
    (b"/a$$", b"/a", false, 0),
    (b"/a$$", b"/a$$", false, 0),
    // no end mark
    (b"/a%24", b"/a$", true, 5),
    (b"/a%24", b"/a$b", true, 5),
    (b"/a%24$", b"/a$b", false, 0),
    // "/a%252" and an end mark: the "$" is no part of an escape
    (b"/a%2$", b"/a%2", true, 6),
    (b"/a%2$", b"/a$", false, 0),
    // "%2$" is no escape: both are "/%252%244"
    (b"/%2$4", b"/%2$4", true, 9),
    // the path is "/%24", and has no end mark
    (b"/$", b"/$", false, 0),
];

/// "any other "%": %25"; a star ends the digits behind a "%".
const ESCAPES_CUT_BY_STARS: &[Short] = &[
    // runs "/%254" and "1"; the path is "/A"
    (b"/%4*1", b"/%41", false, 0),
    (b"/%4*1", b"/A", false, 0),
    // the path is "/%254x1"
    (b"/%4*1", b"/%4x1", true, 7),
    // the path is "/%254%2A1": 5; "1" at 5 to 8
    (b"/%4*1", b"/%4*1", true, 9),
    // runs "/a%252" and "F"; the path is "/a%2F"
    (b"/a%2*F", b"/a%2F", false, 0),
    // the path is "/a%252xF"
    (b"/a%2*F", b"/a%2xF", true, 8),
    // runs "/%25" and "41"; the path is "/A"
    (b"/%*41", b"/%41", false, 0),
    // the path is "/%25x41": 4; "41" at 4 costs 1, at 5 costs 2
    (b"/%*41", b"/%x41", true, 7),
    // the path is "/%2541"
    (b"/%*41", b"/%2541", true, 6),
];

/// "A star stands for any number of octets of the normalised path, none
/// included; it may stop inside a %XX."
const STOPS_INSIDE_AN_ESCAPE: &[Short] = &[
    // the path is "/%2A": "/" 1; "2A" at 1 costs 1, at 2 costs 2
    (b"/*2A", b"/*", true, 4),
    (b"/*A", b"/%2a", true, 4),
    // the path is "/%E3": "/" 1; "3" only at 3
    (b"/*3$", b"/\xE3", true, 2),
    // the path is "/%E3%83%84"; "4" only at 9
    (b"/*4$", b"/\xE3\x83\x84", true, 2),
    // "/" 1; "3" at 1, 2 and 3
    (b"/*3", b"/\xE3\x83\x84", true, 4),
];

/// "Decoding %2F or %2A before comparing" looks right, and isn't.
const SPELLINGS: &[Short] = &[
    (b"/a%2Fb", b"/a/b", false, 0),
    (b"/a/b", b"/a%2Fb", false, 3),
    (b"/a%2fb", b"/a%2Fb", true, 6),
    (b"/a%2Ab", b"/a*b", true, 6),
    (b"/a%2Ab", b"/axb", false, 0),
    (b"/a%2Ab", b"/axxxxb", false, 3),
    // "/a" 2; "b" at 2 to 5
    (b"/a*b", b"/a%2Ab", true, 6),
    (b"/%61%7E", b"/a~", true, 3),
    (b"/a~", b"/%61%7e", true, 3),
    (b"/\xC3\xA9", b"/%c3%a9", true, 7),
    (b"/%C3%A9", b"/\xC3\xA9", true, 7),
    (b"/\x7F", b"/%7f", true, 4),
];

/// "/robots.txt has no special standing here."
const OWN_PATH: &[Short] = &[
    (b"/", b"/robots.txt", true, 1),
    (b"/robots.txt", b"/robots.txt", true, 11),
    (b"/robots.txt$", b"/%72obots.txt", true, 11),
    (b"/robots.txt", b"/robots.txt?x", true, 11),
    (b"/x", b"/robots.txt", false, 2),
];

/// "a readable pattern begins with "/" or "*"" (M-102): the first run is empty
/// and costs nothing, and the one behind the star is a later run.
const STAR_FIRST: &[Short] = &[
    (b"*", b"/", true, 0),
    (b"*", b"/xyz", true, 0),
    (b"*", b"/robots.txt", true, 0),
    (b"**", b"/x", true, 0),
    (b"*$", b"/", true, 0),
    (b"*$", b"/x", true, 0),
    (b"***$", b"/x", true, 0),
    (b"*/", b"/", true, 1),
    (b"*/", b"/a", true, 1),
    // "a" at 0; at 1 it would pass
    (b"*a", b"/", false, 1),
    (b"*ab", b"/", false, 0),
    // "a" at 0, 1 and 2
    (b"*a", b"/ba", true, 3),
    (b"**a**", b"/ba", true, 3),
    // "/a" at 0 costs 2, at 1 costs 1, at 2 costs 2
    (b"*/a", b"/b/a", true, 5),
    // "ab" at 0 costs 1, at 1 costs 2, at 2 costs 2
    (b"*ab", b"/aab", true, 5),
    // "a" at 0 and 1; "b" at 2 and 3
    (b"*a*b", b"/axb", true, 4),
    // ".gif" only at 2, at 2, at 3 and under 0
    (b"*.gif$", b"/xxgif", false, 1),
    (b"*.gif$", b"/x.gig", false, 4),
    (b"*.gif$", b"/x.gif/", false, 1),
    (b"*.gif$", b"/x", false, 0),
    // at 0 too: the last run isn't also the first
    (b"*/a$", b"/a", true, 2),
    (b"*/a$", b"/a/a", true, 2),
    (b"*/a$", b"/", false, 0),
    // "a" at 0 and 1; the last "a" only at 1, and only at 2
    (b"*a*a$", b"/a", false, 2),
    (b"*a*a$", b"/aa", true, 3),
    // an end mark, and the path is "/%24"
    (b"*$", b"/$", true, 0),
    // "%24" at 0 costs 1, at 1 costs 3; with an end mark only at 1
    (b"*$*", b"/$", true, 4),
    (b"*$$", b"/$", true, 3),
    // "%24a" at 0 costs 1, at 1 costs 4
    (b"*$a", b"/$a", true, 5),
    // "%2A" at 0 costs 1, at 1 costs 3
    (b"*%2a", b"/*", true, 4),
    (b"*%2a", b"/x", false, 0),
    // "2A" at 0 and 1 costs 1 each, at 2 costs 2
    (b"*2A", b"/*", true, 4),
    // the path is "/%254x1": "%254" at 0 costs 1, at 1 costs 4; "1" at 5 and 6
    (b"*%4*1", b"/%4x1", true, 7),
    (b"*.txt$", b"/robots.txt", true, 4),
];
