//! The inputs. They are the same in each run.

/// About this many octets in each input.
const LENGTH: usize = 500_000;

const WORDS: [&str; 16] = [
    "shop", "item", "news", "2024", "archive", "images", "user", "login", "search", "a", "static",
    "blog", "tag", "print", "api", "download",
];

const AGENTS: [&str; 6] = [
    "*",
    "ExampleBot",
    "foobot",
    "Image-Crawler",
    "news_reader",
    "a",
];

const ESCAPED: [&str; 12] = [
    "%E3%83%84",
    "%e3%83%84",
    "\u{30c4}",
    "\u{e9}",
    "%62%61%7A",
    "%2F",
    "%2f",
    "%20",
    "%7Euser",
    "%",
    "*",
    "$",
];

const ENDS: [&str; 4] = ["html", "php", "pdf", "jpg"];

/// Records, each ended by LF. A question about a pattern and a path takes two
/// records, in this order.
pub struct Input {
    pub name: &'static str,
    pub text: Vec<u8>,
}

impl Input {
    /// The records without their LF.
    pub fn records(&self) -> Vec<&[u8]> {
        let mut records: Vec<&[u8]> = self.text.split(|octet| *octet == b'\n').collect();
        // what follows the last LF is no record
        records.pop();
        records
    }
}

/// A fixed row of numbers (a linear congruence).
pub struct Numbers(u64);

impl Numbers {
    /// The same numbers each time.
    pub fn new() -> Numbers {
        Numbers(9_309)
    }

    pub fn below(&mut self, limit: usize) -> usize {
        self.0 = self
            .0
            .wrapping_mul(6_364_136_223_846_793_005)
            .wrapping_add(1_442_695_040_888_963_407);
        (self.0 >> 33) as usize % limit
    }

    pub fn pick<'a>(&mut self, words: &[&'a str]) -> &'a str {
        words[self.below(words.len())]
    }
}

/// Records until the text is long enough.
fn input(name: &'static str, record: impl Fn(&mut Numbers) -> String) -> Input {
    let mut numbers = Numbers::new();
    let mut text = Vec::new();
    while text.len() < LENGTH {
        text.extend(record(&mut numbers).bytes());
        text.push(b'\n');
    }
    Input { name, text }
}

/// A file as sites have them: comments, agents, rules, blank lines and
/// others.
pub fn mixed_file() -> Input {
    input("mixed lines", mixed_line)
}

/// A line of such a file.
pub fn mixed_line(numbers: &mut Numbers) -> String {
    match numbers.below(20) {
        0..=2 => format!("# {}", sentence(numbers)),
        3 | 4 => String::new(),
        5..=7 => format!("User-agent: {}", numbers.pick(&AGENTS)),
        8 => format!("Sitemap: https://www.example.com{}", plain_path(numbers)),
        9 => format!("Crawl-delay: {}", numbers.below(30)),
        10 => format!("disallow: {} # {}", pattern(numbers), sentence(numbers)),
        _ => rule(numbers),
    }
}

/// A file of rules.
pub fn rules_file() -> Input {
    input("rules", |numbers| match numbers.below(50) {
        0 => format!("User-agent: {}", numbers.pick(&AGENTS)),
        _ => rule(numbers),
    })
}

/// Paths that stay as they are.
pub fn plain_paths() -> Input {
    input("plain paths", plain_path)
}

/// Paths of which most octets change or are escaped.
pub fn escaped_paths() -> Input {
    input("escaped paths", |numbers| {
        let mut path = String::new();
        for _ in 0..1 + numbers.below(5) {
            path.push('/');
            for _ in 0..1 + numbers.below(4) {
                path.push_str(numbers.pick(&ESCAPED));
            }
        }
        path
    })
}

/// Patterns without stars; some are a beginning of their path.
pub fn fixed_patterns() -> Input {
    input("fixed patterns", |numbers| {
        let path = plain_path(numbers);
        let pattern = match numbers.below(2) {
            0 => path[..1 + numbers.below(path.len())].to_string(),
            _ => folders(numbers),
        };
        format!("{pattern}\n{path}")
    })
}

/// Patterns with stars and end marks; many are made from their path.
pub fn star_patterns() -> Input {
    input("star patterns", |numbers| {
        let (folders, end) = (folders(numbers), numbers.pick(&ENDS));
        let query = match numbers.below(4) {
            0 => format!("?id={}", numbers.below(10_000)),
            _ => String::new(),
        };
        let pattern = star_pattern(numbers, &folders, end);
        format!("{pattern}\n{folders}.{end}{query}")
    })
}

/// A pattern for a path of these folders and this end.
fn star_pattern(numbers: &mut Numbers, folders: &str, end: &str) -> String {
    let held: Vec<&str> = folders.split('/').skip(1).collect();
    let (word, end) = match numbers.below(4) {
        0 => (numbers.pick(&WORDS), numbers.pick(&ENDS)),
        _ => (numbers.pick(&held), end),
    };
    match numbers.below(6) {
        0 => format!("/*/{word}"),
        1 => format!("/*{word}*.{end}$"),
        2 => format!("/{}/*{word}", held[0]),
        3 => format!("/*.{end}$"),
        4 => format!("/*{word}*?id="),
        _ => format!("/{word}*"),
    }
}

pub fn rule(numbers: &mut Numbers) -> String {
    let side = numbers.pick(&["Allow", "Disallow", "Disallow", "disallow"]);
    format!("{side}: {}", pattern(numbers))
}

fn pattern(numbers: &mut Numbers) -> String {
    let path = plain_path(numbers);
    let end = numbers.pick(&["", "", "", "/", "*", "/*.html$", "%C3%A9", "\u{e9}"]);
    format!("{path}{end}")
}

fn folders(numbers: &mut Numbers) -> String {
    let mut path = String::new();
    for _ in 0..1 + numbers.below(5) {
        path.push('/');
        path.push_str(numbers.pick(&WORDS));
    }
    path
}

pub fn plain_path(numbers: &mut Numbers) -> String {
    let mut path = folders(numbers);
    if numbers.below(4) == 0 {
        path.push_str(&format!("?id={}&lang=en", numbers.below(10_000)));
    }
    path
}

pub fn sentence(numbers: &mut Numbers) -> String {
    let words: Vec<&str> = (0..3 + numbers.below(8))
        .map(|_| numbers.pick(&WORDS))
        .collect();
    words.join(" ")
}
