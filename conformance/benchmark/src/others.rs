//! Five more rules files, of the same five sorts as `sites`, on which nothing
//! was tuned. They are the same in each run.

use crate::inputs::Numbers;
use crate::sites::{paths, Site, LONGEST, NAMES};

const WORDS: [&str; 20] = [
    "harbour", "quay", "de", "fr", "w", "page.php", "Special:", "wp-admin", "cart", "checkout",
    "media", "v2", "members", "q", "crossing", "tickets", "%7Ecrew", "\u{e9}t", "%C3%A9n", "feed",
];

const AGENTS: [&str; 8] = [
    "*",
    "exampleBOT",
    "Harbour-Crawler",
    "ferry_index/1.4",
    "MEDIABOT",
    "x",
    "seo-checker",
    "archive_org",
];

/// Line endings are CR LF.
const SMALL: &str = "\
USER-AGENT: *\r
Allow: /wp-admin/admin-ajax.php\r
Disallow: /wp-admin/\r
disallow:/cart\r
Disallow: /checkout/   # no orders\r
Disallow: /*add-to-cart=\r
Disallow:\r
Crawl-Delay: 5\r
\r
# the map of the harbour\r
User-agent: MediaBot/2.0\r
User-agent: examplebot\r
Crawl-delay: 1\r
Allow: /media/\r
Allow: /tickets/*.html$\r
Disallow: /\r
\r
Host: www.example.org\r
Sitemap: https://www.example.org/sitemap_index.xml\r
Sitemap: https://www.example.org/news-sitemap.xml\r
";

pub fn all() -> [Site; 5] {
    [small(), large(), longest(), stars(), remarks()]
}

fn small() -> Site {
    Site {
        name: "another small site",
        file: SMALL.as_bytes().to_vec(),
        names: NAMES,
        paths: paths(&[
            "/tickets/adult.html",
            "/wp-admin/admin-ajax.php?action=x",
            "/media/quay.jpg",
            "/",
            "/crossings?add-to-cart=7",
        ]),
    }
}

/// Many groups, more stars, and escapes.
fn large() -> Site {
    let mut numbers = Numbers::new();
    let mut lines = vec!["# rules of www.example.org\n".to_string()];
    for at in 0..24 {
        lines.push(format!("User-agent: {}", AGENTS[at % AGENTS.len()]));
        if at % 5 == 0 {
            lines.push(format!("user-agent: crawler-{}", "abc".repeat(at % 4 + 1)));
        }
        lines.extend((0..20 + at * 2).map(|_| rule(&mut numbers)));
        lines.push(String::new());
    }
    Site {
        name: "another large site",
        file: (lines.join("\n") + "\n").into_bytes(),
        names: NAMES,
        paths: (0..5).map(|_| path(&mut numbers)).collect(),
    }
}

/// Another mix of lines; the last one is cut.
fn longest() -> Site {
    let mut numbers = Numbers::new();
    let mut file = b"\xEF\xBB\xBF".to_vec();
    while file.len() < LONGEST {
        file.extend(line(&mut numbers).bytes());
        file.extend(numbers.pick(&["\n", "\n", "\n", "\r\n"]).bytes());
    }
    file.truncate(LONGEST);
    Site {
        name: "another longest file",
        file,
        names: NAMES,
        paths: vec![path(&mut numbers), "/quay".to_string()],
    }
}

/// Patterns of two to four stars, most of them with an end mark.
fn stars() -> Site {
    let mut numbers = Numbers::new();
    let mut lines = vec!["User-agent: *\nUser-agent: ExampleBot".to_string()];
    for at in 0..300 {
        let words: Vec<&str> = (0..1 + at % 3).map(|_| numbers.pick(&WORDS)).collect();
        let end = numbers.pick(&["$", "$", "", "/$"]);
        let side = ["disallow", "Allow", "Disallow"][at % 3];
        lines.push(format!("{side}: /*/{}*y{end}", words.join("*")));
    }
    Site {
        name: "another star file",
        file: (lines.join("\n") + "\n").into_bytes(),
        names: NAMES,
        paths: vec![
            "/de/harbour/tickets/media/way".to_string(),
            format!("/{}/y", "harbour/w/q/".repeat(60)),
            path(&mut numbers),
            format!("/{}", "crossing".repeat(25)),
        ],
    }
}

/// Long comments, comments behind rules, and tabs.
fn remarks() -> Site {
    let mut numbers = Numbers::new();
    let mut lines = vec!["User-Agent:\t*\t# everyone".to_string()];
    for at in 0..600 {
        lines.push(match at % 6 {
            0 => format!("\t#\t{}", remark(&mut numbers, 40)),
            1 => format!("{}\t\t# {}", rule(&mut numbers), remark(&mut numbers, 12)),
            2 => "#".repeat(72),
            _ => format!("#{}", remark(&mut numbers, 25)),
        });
    }
    Site {
        name: "another remarks file",
        file: (lines.join("\n") + "\n").into_bytes(),
        names: NAMES,
        paths: paths(&["/", "/harbour/tickets?day=2", "/wp-admin"]),
    }
}

fn line(numbers: &mut Numbers) -> String {
    match numbers.below(24) {
        0 => format!("#{}", remark(numbers, 20)),
        1 => String::new(),
        2 => "   ".to_string(),
        3 => format!("USER-AGENT : {}", numbers.pick(&AGENTS)),
        4 => format!("user-agent:{}", numbers.pick(&AGENTS)),
        5 => format!("Sitemap: https://www.example.org{}.xml", path(numbers)),
        6 => "Request-rate: 1/10".to_string(),
        7 => numbers.pick(&["<html>", "Dissallow: /x", "noindex"]).into(),
        8 => format!("  {}", rule(numbers)),
        9 => format!("{} #{}", rule(numbers), remark(numbers, 6)),
        10 => "Disallow:".to_string(),
        _ => rule(numbers),
    }
}

fn rule(numbers: &mut Numbers) -> String {
    let side = numbers.pick(&["Disallow: ", "Disallow: ", "DISALLOW:", "Allow: "]);
    let path = path(numbers);
    match numbers.below(6) {
        0 => format!("{side}/*{path}"),
        1 => format!("{side}{path}*sort="),
        2 => format!("{side}/*/{}$", numbers.pick(&WORDS)),
        _ => format!("{side}{path}"),
    }
}

fn path(numbers: &mut Numbers) -> String {
    let mut path = String::new();
    for _ in 0..1 + numbers.below(4) {
        path.push('/');
        path.push_str(numbers.pick(&WORDS));
    }
    path + numbers.pick(&["", "", "/", "?page=2", "&x=%2f"])
}

fn remark(numbers: &mut Numbers, words: usize) -> String {
    let words: Vec<&str> = (0..words).map(|_| numbers.pick(&WORDS)).collect();
    words.join(" ")
}
