//! Rules files, and what crawlers ask about them. They are the same in each
//! run.

use crate::inputs::{mixed_line, plain_path, rule, sentence, Numbers};

/// The longest file that is answered.
pub const LONGEST: usize = 512_000;

/// A file with the names and paths that are asked about it, each name with
/// each path.
pub struct Site {
    pub name: &'static str,
    pub file: Vec<u8>,
    pub names: [&'static str; 2],
    pub paths: Vec<String>,
}

/// A crawler that most of the files name, and one that none does.
pub const NAMES: [&str; 2] = ["ExampleBot", "another-bot"];

const SMALL: &str = "\
# www.example.com
User-agent: *
Disallow: /admin/
Disallow: /login
Disallow: /search
Disallow: /*?session=
Disallow: /*.pdf$
Allow: /search/help
Crawl-delay: 10

User-agent: ExampleBot
User-agent: news_reader
Disallow: /archive/
Allow: /archive/2024/
Disallow: /print/

# nothing for this one
User-agent: Image-Crawler
Disallow: /

Sitemap: https://www.example.com/sitemap.xml
";

pub fn paths(paths: &[&str]) -> Vec<String> {
    paths.iter().map(|path| path.to_string()).collect()
}

/// The files that are asked about.
pub fn all() -> [Site; 5] {
    [small(), large(), longest(), eleven_stars(), remarks()]
}

/// Some twenty lines.
fn small() -> Site {
    Site {
        name: "small site",
        file: SMALL.as_bytes().to_vec(),
        names: NAMES,
        paths: paths(&[
            "/",
            "/archive/2024/news.html",
            "/search?q=ferry&page=2",
            "/images/logo.png",
            "/shop/item/print.pdf",
        ]),
    }
}

/// Hundreds of rules for everyone, and some for each of several crawlers.
fn large() -> Site {
    let mut numbers = Numbers::new();
    let mut lines = vec!["User-agent: *".to_string()];
    lines.extend((0..600).map(|_| rule(&mut numbers)));
    for agent in ["foobot", "Image-Crawler", "ExampleBot", "news_reader"] {
        lines.push(format!(
            "\n# {}\nUser-agent: {agent}",
            sentence(&mut numbers)
        ));
        lines.extend((0..60).map(|_| rule(&mut numbers)));
    }
    Site {
        name: "large site",
        file: (lines.join("\n") + "\n").into_bytes(),
        names: NAMES,
        paths: (0..5).map(|_| plain_path(&mut numbers)).collect(),
    }
}

/// Lines of all sorts, exactly as many octets as are answered; the last line
/// is cut.
fn longest() -> Site {
    let mut numbers = Numbers::new();
    let mut file = Vec::new();
    while file.len() < LONGEST {
        file.extend(mixed_line(&mut numbers).bytes());
        file.push(b'\n');
    }
    file.truncate(LONGEST);
    Site {
        name: "longest file",
        file,
        names: NAMES,
        paths: vec![plain_path(&mut numbers), "/about.html".to_string()],
    }
}

/// Two hundred patterns of eleven stars each, which fail late on the longest
/// path.
fn eleven_stars() -> Site {
    let mut lines = vec!["User-agent: *\nUser-agent: ExampleBot".to_string()];
    for at in 0..200 {
        let side = ["Disallow", "Allow"][at % 2];
        lines.push(format!("{side}: /{}*b{at}", "*a".repeat(10)));
    }
    Site {
        name: "eleven stars",
        file: (lines.join("\n") + "\n").into_bytes(),
        names: NAMES,
        paths: vec![
            format!("/{}", "a".repeat(2_047)),
            format!("/{}b6", "a".repeat(100)),
            "/archive/2024/news.html".to_string(),
        ],
    }
}

/// Remarks, with few rules between them.
fn remarks() -> Site {
    let mut numbers = Numbers::new();
    let mut file = Vec::new();
    for line in ["User-agent: *", "Disallow: /search", "Allow: /search/help"] {
        for _ in 0..700 {
            file.extend(format!("# {}\n", sentence(&mut numbers)).bytes());
        }
        file.extend(format!("{line}\n").bytes());
    }
    Site {
        name: "remarks",
        file,
        names: NAMES,
        paths: paths(&["/", "/search?q=ferry", "/search/help"]),
    }
}
