//! Reads the rows of the definitions' tables: each begins a line, moved in by
//! four spaces, behind `∷` but for the first. A row may go on in the lines below.

/// A row and where it begins.
pub struct Row {
    pub file: &'static str,
    pub line: usize,
    pub text: String,
}

impl Row {
    /// The row's first word.
    pub fn sort(&self) -> &str {
        self.text.split(' ').next().unwrap_or("")
    }
}

const LEADING_MARK: [u8; 3] = [0xEF, 0xBB, 0xBF];

/// What rows call by its name.
const NAMED: [&str; 9] = [
    "simple_example",
    "draft_record",
    "for_one",
    "for_two",
    "for_none",
    "for_nine",
    "nine_paths",
    "nine_ends",
    "nine_file",
];

/// Sorts of rows that share a text, which stands in the sort's definition.
const SHARING: [&str; 1] = ["refused_list"];

/// What the name is defined as: what stands behind its `=` and below, moved in.
/// It is put in parentheses, unless it is a text. Nothing where the file doesn't
/// define it.
fn named_text(text: &str, name: &str) -> Option<String> {
    let (_, behind) = text.split_once(&format!("\n{name} ="))?;
    let mut lines = behind.lines();
    let beside = lines.next()?;
    let below = lines.map_while(|line| line.strip_prefix("    "));
    let whole: Vec<&str> = [beside].into_iter().chain(below).collect();
    let whole = whole.join(" ").trim().to_string();
    Some(match whole.starts_with('"') {
        true => whole,
        false => format!("({whole})"),
    })
}

/// The sort with its shared text behind it. Nothing where the file doesn't define
/// it so.
fn with_shared_text(text: &str, sort: &str) -> Option<String> {
    let (_, behind) = text.split_once(&format!("\n{sort} "))?;
    let shared = behind.lines().next()?.split('"').nth(1)?;
    Some(format!("{sort} \"{shared}\""))
}

/// The names that the file defines, and what stands in their places.
fn all_named(text: &str) -> Vec<(&'static str, String)> {
    let named = NAMED.map(|name| Some((name, named_text(text, name)?)));
    let sharing = SHARING.map(|sort| Some((sort, with_shared_text(text, sort)?)));
    named.into_iter().chain(sharing).flatten().collect()
}

/// The lines that are moved in, but for comments, and their numbers. A line goes
/// on in the next one, unless that begins with `∷`.
fn joined_lines(text: &str) -> Vec<(usize, String)> {
    let mut joined: Vec<(usize, String)> = Vec::new();
    let mut goes_on = false;
    for (at, line) in text.lines().enumerate() {
        let inner = line.strip_prefix("    ");
        let Some(inner) = inner.filter(|inner| !inner.starts_with("--")) else {
            goes_on = false;
            continue;
        };
        match joined.last_mut() {
            Some((_, above)) if goes_on && !inner.starts_with('∷') => {
                *above = format!("{above} {inner}");
            }
            _ => joined.push((at + 1, inner.to_string())),
        }
        goes_on = true;
    }
    joined
}

/// The rows of these sorts, with what the names stand for in their places.
pub fn read(file: &'static str, text: &str, sorts: &[&str]) -> Vec<Row> {
    let named = all_named(text);
    let row = |(line, inner): (usize, String)| {
        let mut text = inner.strip_prefix("∷ ").unwrap_or(&inner).to_string();
        for (name, held) in &named {
            text = text.replace(name, held);
        }
        Row { file, line, text }
    };
    let rows = joined_lines(text).into_iter().map(row);
    rows.filter(|row| sorts.contains(&row.sort())).collect()
}

/// Takes a row apart from the left. What doesn't fit is a panic.
pub struct Scanner<'a> {
    left: &'a str,
}

impl<'a> Scanner<'a> {
    pub fn new(row: &'a str) -> Self {
        Scanner { left: row }
    }

    fn skip(&mut self, token: &str) -> bool {
        self.left = self.left.trim_start();
        match self.left.strip_prefix(token) {
            Some(rest) => {
                self.left = rest;
                true
            }
            None => false,
        }
    }

    fn expect(&mut self, token: &str) {
        assert!(self.skip(token), "{token} expected at: {}", self.left);
    }

    pub fn end(&mut self) {
        assert_eq!(self.left.trim(), "", "the row should end here");
    }

    /// A name, a numeral or a keyword.
    pub fn word(&mut self) -> String {
        self.left = self.left.trim_start();
        let ends = |c: char| c == ' ' || c == '(' || c == ')';
        let (word, rest) = self
            .left
            .split_at(self.left.find(ends).unwrap_or(self.left.len()));
        self.left = rest;
        word.to_string()
    }

    pub fn number(&mut self) -> usize {
        let word = self.word().replace('_', "");
        let number = match word.strip_prefix("0x") {
            Some(hex) => usize::from_str_radix(hex, 16),
            None => word.parse(),
        };
        number.unwrap_or_else(|_| panic!("a number expected, not {word}"))
    }

    /// `true` or `false`.
    pub fn truth(&mut self) -> bool {
        let word = self.word();
        word.parse()
            .unwrap_or_else(|_| panic!("true or false expected, not {word}"))
    }

    /// A text in quotation marks, of ASCII.
    pub fn text(&mut self) -> Vec<u8> {
        self.expect("\"");
        let mut octets = Vec::new();
        let mut chars = self.left.char_indices();
        while let Some((at, c)) = chars.next() {
            let octet = match c {
                '"' => {
                    self.left = &self.left[at + 1..];
                    return octets;
                }
                '\\' => escaped(chars.next().map(|(_, c)| c)),
                c if c.is_ascii() => c as u8,
                c => panic!("{c} is not ASCII"),
            };
            octets.push(octet);
        }
        panic!("a text has no end: {}", self.left);
    }

    /// A text in which "|" ends a line.
    pub fn text_of_lines(&mut self) -> Vec<u8> {
        let line_feed = |octet| if octet == b'|' { b'\n' } else { octet };
        self.text().into_iter().map(line_feed).collect()
    }

    /// The same in which "^" is a leading mark.
    pub fn marked_text(&mut self) -> Vec<u8> {
        let marked = |octet| match octet {
            b'^' => LEADING_MARK.to_vec(),
            other => vec![other],
        };
        self.text_of_lines().into_iter().flat_map(marked).collect()
    }

    /// Octets: `[]`, `leading_mark`, `octets "…"`, `lines "…"`, or some of these and
    /// lists of numerals in parentheses, joined by `++`.
    pub fn octets(&mut self) -> Vec<u8> {
        if self.skip("(") {
            let octets = self.joined();
            self.expect(")");
            return octets;
        }
        match self.word().as_str() {
            "[]" => Vec::new(),
            "leading_mark" => LEADING_MARK.to_vec(),
            "octets" => self.text(),
            "lines" => self.text_of_lines(),
            other => panic!("octets expected, not {other}"),
        }
    }

    fn joined(&mut self) -> Vec<u8> {
        if self.left.starts_with(|c: char| c.is_ascii_digit()) {
            let octet = |number| u8::try_from(number).expect("an octet");
            return self.list().into_iter().map(octet).collect();
        }
        let mut octets = self.octets();
        while self.skip("++") {
            octets.extend(self.octets());
        }
        octets
    }

    /// `0x7F ∷ 0xC2 ∷ []`
    fn list(&mut self) -> Vec<usize> {
        let mut numbers = Vec::new();
        while !self.skip("[]") {
            numbers.push(self.number());
            self.expect("∷");
        }
        numbers
    }

    /// `[]`, or `(0 ∷ 1 ∷ [])`.
    pub fn numbers(&mut self) -> Vec<usize> {
        if self.skip("[]") {
            return Vec::new();
        }
        self.expect("(");
        let numbers = self.list();
        self.expect(")");
        numbers
    }

    /// `(lent (50 ∷ []) [] (70 ∷ 71 ∷ []))`
    pub fn lent(&mut self) -> [Vec<usize>; 3] {
        self.expect("(");
        self.expect("lent");
        let slices = [(); 3].map(|()| self.numbers());
        self.expect(")");
        slices
    }

    /// `(allow 0 0 0)`, `(disallow 2 0 1)` or `(refused 3)`.
    pub fn answer(&mut self) -> (String, Vec<usize>) {
        self.expect("(");
        let word = self.word();
        let mut numbers = Vec::new();
        while !self.skip(")") {
            numbers.push(self.number());
        }
        (word, numbers)
    }
}

fn escaped(c: Option<char>) -> u8 {
    match c {
        Some('n') => b'\n',
        Some('r') => b'\r',
        Some('t') => b'\t',
        Some('0') => 0,
        other => panic!("an unknown escape: {other:?}"),
    }
}
