//! The worked table, with the row that M-102 adds, and the program's example.
//! "|" ends a line.

use evaluator::{decide, program, Decision};

/// File, name, path; disallow, line, unread, compared; place and length.
type Row = (
    &'static str,
    &'static str,
    &'static str,
    (bool, usize, usize, usize),
    (usize, usize),
);

const ALLOW: bool = false;
const DISALLOW: bool = true;

const ROWS: [Row; 12] = [
    ("", "a", "/", (ALLOW, 0, 0, 0), (0, 0)),
    (
        "user-agent: a|disallow: /",
        "A",
        "/x",
        (DISALLOW, 2, 0, 1),
        (24, 1),
    ),
    (
        "user-agent: a|disallow: /",
        "a",
        "/%72obots.txt",
        (ALLOW, 0, 0, 0),
        (0, 0),
    ),
    (
        "user-agent: a|disallow: /",
        "b",
        "/x",
        (ALLOW, 0, 0, 0),
        (0, 0),
    ),
    (
        "user-agent: *|allow: /p|disallow: /",
        "a",
        "/page",
        (ALLOW, 2, 0, 3),
        (21, 2),
    ),
    (
        "user-agent: *|disallow: /folder|allow: /folder",
        "a",
        "/folder/page",
        (ALLOW, 3, 0, 14),
        (39, 7),
    ),
    (
        "user-agent: *|allow: /page|disallow: /*.htm",
        "a",
        "/page.htm",
        (DISALLOW, 3, 0, 14),
        (37, 6),
    ),
    (
        "user-agent: *|disallow: /*.php$",
        "a",
        "/filename.php5",
        (ALLOW, 0, 0, 2),
        (0, 0),
    ),
    (
        "user-agent: *|disallow: /path/foo-%24",
        "a",
        "/path/foo-$",
        (DISALLOW, 2, 0, 13),
        (24, 13),
    ),
    (
        "user-agent: a|sitemap: x|user-agent: b|disallow: /",
        "a",
        "/",
        (DISALLOW, 4, 0, 1),
        (49, 1),
    ),
    (
        "user-agent: a|disallow: x|user-agent: b|disallow: /",
        "a",
        "/",
        (ALLOW, 0, 1, 0),
        (0, 0),
    ),
    // M-102's row
    (
        "user-agent: *|disallow: *.gif$",
        "a",
        "/x.gif",
        (DISALLOW, 2, 0, 4),
        (24, 6),
    ),
];

#[test]
fn every_row() {
    for (file, name, path, (disallow, line, unread, compared), (place, length)) in ROWS {
        let lines = file.replace('|', "\n");
        let expected = Decision {
            refusal: 0,
            disallow,
            line,
            place,
            length,
            unread,
            compared,
        };
        let answer = decide(lines.as_bytes(), name.as_bytes(), path.as_bytes());
        assert_eq!(answer, expected, "{file} {name} {path}");
    }
}

#[test]
fn every_row_with_every_line_ending() {
    for (file, name, path, (disallow, line, unread, compared), _) in ROWS {
        for ending in ["\r", "\n", "\r\n"] {
            for last in ["", ending] {
                let lines = file.replace('|', ending) + last;
                let answer = decide(lines.as_bytes(), name.as_bytes(), path.as_bytes());
                assert_eq!(
                    (answer.disallow, answer.line, answer.unread, answer.compared),
                    (disallow, line, unread, compared),
                    "{lines:?} {name} {path}"
                );
            }
        }
    }
}

#[test]
fn the_programs_example() {
    let input = b"drydockbot\n/sailings/draft/9\nuser-agent: *\n\
        disallow: /sailings/draft\nallow: /sailings\n";
    assert_eq!(program(input), b"disallow line 2 unread 0 compared 24\n");
}

#[test]
fn the_program_gives_the_rows() {
    for (file, name, path, (disallow, line, unread, compared), _) in ROWS {
        let input = format!("{name}\n{path}\n{}", file.replace('|', "\n"));
        let word = if disallow { "disallow" } else { "allow" };
        let output = format!("{word} line {line} unread {unread} compared {compared}\n");
        assert_eq!(program(input.as_bytes()), output.as_bytes(), "{input}");
    }
}
