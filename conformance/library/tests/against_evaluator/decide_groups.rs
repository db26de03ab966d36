//! From lines to groups, and the rules that apply, worked out by hand. "|" ends
//! a line.

use crate::deciding::check_decide;

/// File, name, and the lines of the rules that apply. The path is "/", every
/// pattern too, and so the compared count is the number of those rules; all are
/// on one side, so that the first of them decides.
const ROWS: [(&str, &str, &[usize]); 61] = [
    // "if any group names the crawler, the rules of all such groups"
    ("user-agent: a|disallow: /", "a", &[2]),
    (
        "user-agent: a|disallow: /|user-agent: a|disallow: /",
        "a",
        &[2, 4],
    ),
    (
        "user-agent: a|disallow: /|user-agent: b|disallow: /|user-agent: A|disallow: /",
        "a",
        &[2, 6],
    ),
    (
        "user-agent: b|disallow: /|user-agent: a|disallow: /",
        "a",
        &[4],
    ),
    // "each group once"
    ("user-agent: a|user-agent: a|disallow: /", "a", &[3]),
    (
        "user-agent: a|user-agent: b|user-agent: A|disallow: /|disallow: /",
        "a",
        &[4, 5],
    ),
    // "otherwise those of all groups naming "*"; otherwise none"
    ("user-agent: *|disallow: /", "a", &[2]),
    (
        "user-agent: *|disallow: /|user-agent: b|disallow: /|user-agent: *|disallow: /",
        "a",
        &[2, 6],
    ),
    ("user-agent: b|user-agent: *|disallow: /", "a", &[3]),
    ("user-agent: b|disallow: /", "a", &[]),
    ("disallow: /", "a", &[]),
    // "Adding the "*" groups' rules to a named group's" only looks right
    (
        "user-agent: *|disallow: /|user-agent: a|disallow: /",
        "a",
        &[4],
    ),
    (
        "user-agent: a|disallow: /|user-agent: *|disallow: /",
        "a",
        &[2],
    ),
    (
        "user-agent: a|user-agent: *|disallow: /|user-agent: *|disallow: /",
        "a",
        &[3],
    ),
    // "A named group without rules therefore allows everything."
    ("user-agent: *|disallow: /|user-agent: a", "a", &[]),
    (
        "user-agent: a|disallow:|user-agent: *|disallow: /",
        "a",
        &[],
    ),
    (
        "user-agent: a|disallow: x|user-agent: *|disallow: /",
        "a",
        &[],
    ),
    // "if a rule line of any readability stands between"
    (
        "user-agent: a|disallow: x|user-agent: b|disallow: /",
        "a",
        &[],
    ),
    ("user-agent: a|allow:|user-agent: b|disallow: /", "a", &[]),
    ("user-agent: b|allow: $|user-agent: a|disallow: /", "b", &[]),
    // "Blank, noise and other lines change nothing"
    ("user-agent: a||user-agent: b|disallow: /", "a", &[4]),
    ("user-agent: a|x|user-agent: b|disallow: /", "a", &[4]),
    (
        "user-agent: a|disallow /|user-agent: b|disallow: /",
        "a",
        &[4],
    ),
    (
        "user-agent: a|sitemap: /|#disallow: /|user-agent: b|: /|disallow: /",
        "a",
        &[6],
    ),
    (
        "user-agent: a|disallow: /||user-agents: b|disallow: /",
        "a",
        &[2, 5],
    ),
    // "An unreadable agent line does this too, and names nobody."
    (
        "user-agent: a|disallow: /|user-agent: 9|disallow: /",
        "a",
        &[2],
    ),
    (
        "user-agent: a|disallow: /|user-agent:|disallow: /",
        "a",
        &[2],
    ),
    ("user-agent: a|user-agent: 9|disallow: /", "a", &[3]),
    ("user-agent: 9|user-agent: a|disallow: /", "a", &[3]),
    // "The value's name is now its longest beginning of A-Z a-z - _ ; the rest
    // is ignored." (M-105)
    ("user-agent: a/1|disallow: /", "a", &[2]),
    ("user-agent: DrydockBot/2.1|disallow: /", "DrydockBot", &[2]),
    ("user-agent: DrydockBot/2.1|disallow: /", "DRYDOCKbot", &[2]),
    ("user-agent: DrydockBot/2.1|disallow: /", "Drydock", &[]),
    ("user-agent: DrydockBot/2.1|disallow: /", "DrydockBots", &[]),
    ("user-agent: Drydock/2.1|disallow: /", "DrydockBot", &[]),
    ("user-agent: Drydock Bot|disallow: /", "DrydockBot", &[]),
    ("user-agent: Bot 2.1|disallow: /", "bot", &[2]),
    ("user-agent: Googlebot*|disallow: /", "googlebot", &[2]),
    ("user-agent: a:b|disallow: /", "a", &[2]),
    ("user-agent: a9b|disallow: /", "ab", &[]),
    ("user-agent: 2bot|disallow: /", "bot", &[]),
    ("user-agent: /bot|disallow: /", "bot", &[]),
    // "the value isn't exactly "*""
    ("user-agent: */2|disallow: /", "a", &[]),
    ("user-agent: **|disallow: /", "a", &[]),
    ("user-agent: *a|disallow: /", "a", &[]),
    ("user-agent: * a|disallow: /", "a", &[]),
    ("user-agent: *a|user-agent: *|disallow: /", "a", &[3]),
    // two agent lines of one group, one of them with a version
    ("user-agent: a/1|user-agent: b|disallow: /", "a", &[3]),
    ("user-agent: a/1|user-agent: b|disallow: /", "b", &[3]),
    ("user-agent: b|user-agent: a/1|disallow: /", "a", &[3]),
    ("user-agent: a/1|user-agent: a/2|disallow: /", "a", &[3]),
    (
        "user-agent: a/1|disallow: /|user-agent: A|disallow: /|user-agent: a 2|disallow: /",
        "a",
        &[2, 4, 6],
    ),
    // a version behind the name: then the "*" groups don't apply
    (
        "user-agent: *|disallow: /|user-agent: a/1|disallow: /",
        "a",
        &[4],
    ),
    (
        "user-agent: a/1|disallow: /|user-agent: *|disallow: /",
        "a",
        &[2],
    ),
    ("user-agent: *|disallow: /|user-agent: a/1", "a", &[]),
    (
        "user-agent: *|disallow: /|user-agent: a/1|disallow: /",
        "ab",
        &[2],
    ),
    (
        "user-agent: *|disallow: /|user-agent: */1|disallow: /",
        "a",
        &[2],
    ),
    // "before the first agent line, to none"
    ("disallow: /|user-agent: a|disallow: /", "a", &[3]),
    ("disallow: /|user-agent: *", "a", &[]),
    // "names are equal, ignoring ASCII case, or they are different"
    (
        "user-agent: Foo-Bot|disallow: /|user-agent: foo|disallow: /",
        "fOO-bOT",
        &[2],
    ),
    (
        "user-agent: foo|disallow: /|user-agent: foo-bot-x|disallow: /",
        "foo-bot",
        &[],
    ),
];

#[test]
fn the_rules_that_apply() {
    for (text, name, rules) in ROWS {
        for side in ["disallow", "allow"] {
            let file = text.replace('|', "\n").replace("disallow", side);
            let answer = check_decide(file.as_bytes(), name.as_bytes(), b"/");
            let first = rules.first().copied().unwrap_or(0);
            let disallow = side == "disallow" && !rules.is_empty();
            assert_eq!(
                (answer.disallow, answer.line, answer.compared),
                (disallow, first, rules.len()),
                "{text} for {name}, {side}"
            );
        }
    }
}

/// Groups of the crawler among many others, whose rules would decide.
#[test]
fn many_groups() {
    let other = "user-agent: b\nuser-agent: *\nallow: /x/y\nallow: /\n";
    let own = "user-agent: A\ndisallow: /x\n";
    for count in [1, 2, 10, 1_000] {
        let others = other.repeat(count);
        let file = [others.as_str(), own, &others, own, &others].concat();
        let answer = check_decide(file.as_bytes(), b"a", b"/x/y");
        let line = 4 * count + 2;
        assert_eq!((answer.disallow, answer.line), (true, line), "{count}");
        // "/x" twice
        assert_eq!(answer.compared, 4, "{count}");
    }
}

/// The crawler is named first, last or nowhere in a long group.
#[test]
fn many_agent_lines() {
    let others = "user-agent: b/a\nuser-agent: 9\n\nuser-agent: aa\n".repeat(1_000);
    for (before, after, disallow) in [
        ("user-agent: a\n", "", true),
        ("", "user-agent: a\n", true),
        ("", "user-agent: A/2.1 b\n", true),
        ("", "", false),
        ("user-agent: a\nallow:\n", "", false),
    ] {
        let file = [before, &others, after, "disallow: /\n"].concat();
        let answer = check_decide(file.as_bytes(), b"a", b"/");
        assert_eq!(answer.disallow, disallow, "{before:?} and {after:?}");
        assert_eq!(answer.unread, 1_000, "{before:?} and {after:?}");
    }
}
