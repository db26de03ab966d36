//! Lists of paths that are asked about in one call. They are the same in each
//! run.

use evaluator::{DRAFT1996, RFC9309};

use crate::inputs::{plain_path, Numbers};
use crate::sites::{self, Site};

/// Paths of a list.
pub const PATHS: usize = 300;

/// One path of so many is made from a rule of the file.
const FROM_RULES: usize = 3;

/// Rules that apply: fewer than the 512 that the library keeps at a time, about as
/// many, and more.
const ROUNDS: [usize; 6] = [100, 511, 512, 513, 1_024, 5_000];

/// A file, a crawler and the paths that it asks for.
pub struct List {
    pub name: String,
    pub dialect: usize,
    pub file: Vec<u8>,
    pub crawler: &'static [u8],
    /// The paths, joined.
    pub paths: Vec<u8>,
    /// Where each path ends.
    pub ends: Vec<usize>,
    /// The rules that apply, where they are told.
    pub rules: Option<usize>,
}

impl List {
    fn new(name: String, file: Vec<u8>, crawler: &'static str, paths: &[String]) -> List {
        assert_eq!(paths.len(), PATHS, "{name}: paths");
        let mut octets = Vec::new();
        let mut ends = Vec::new();
        for path in paths {
            octets.extend(path.bytes());
            ends.push(octets.len());
        }
        List {
            name,
            dialect: RFC9309,
            file,
            crawler: crawler.as_bytes(),
            paths: octets,
            ends,
            rules: None,
        }
    }

    /// The paths, cut.
    pub fn each(&self) -> impl Iterator<Item = &[u8]> {
        let starts = [0].into_iter().chain(self.ends.iter().copied());
        starts
            .zip(&self.ends)
            .map(|(start, end)| &self.paths[start..*end])
    }
}

/// Each of the five files with each of its crawlers.
pub fn files() -> Vec<List> {
    sites::all().into_iter().flat_map(of_site).collect()
}

/// The same in the dialect of 1996.
pub fn draft_files() -> Vec<List> {
    let in_draft = |list| List {
        dialect: DRAFT1996,
        ..list
    };
    files().into_iter().map(in_draft).collect()
}

fn of_site(site: Site) -> [List; 2] {
    let paths = match site.name {
        "eleven stars" => site.paths.iter().cloned().cycle().take(PATHS).collect(),
        _ => paths(&site.file, site.paths),
    };
    site.names.map(|name| {
        let row = format!("{}, {name}", site.name);
        List::new(row, site.file.clone(), name, &paths)
    })
}

/// Files of so many literal rules that apply.
pub fn rounds() -> Vec<List> {
    let of_count = |count: usize| {
        let rules = (0..count).map(|at| format!("disallow: /archive/{at:05}\n"));
        let file = format!("user-agent: *\n{}", rules.collect::<String>()).into_bytes();
        let paths = paths(&file, Vec::new());
        let list = List::new(count.to_string(), file, "another-bot", &paths);
        let rules = Some(count);
        List { rules, ..list }
    };
    ROUNDS.map(of_count).into()
}

/// The file's own paths first, then plain ones, and one of three that a rule of
/// the file matches.
fn paths(file: &[u8], own: Vec<String>) -> Vec<String> {
    let mut numbers = Numbers::new();
    let matched = matched_paths(file);
    let step = (matched.len() * FROM_RULES / PATHS).max(1);
    let mut paths = own;
    for at in paths.len()..PATHS {
        paths.push(match at % FROM_RULES {
            0 => matched[at / FROM_RULES * step % matched.len()].clone(),
            _ => plain_path(&mut numbers),
        });
    }
    paths
}

/// A path for each rule of the file, which its pattern matches.
fn matched_paths(file: &[u8]) -> Vec<String> {
    let text = String::from_utf8_lossy(file);
    text.lines().filter_map(matched_path).collect()
}

fn matched_path(line: &str) -> Option<String> {
    let (field, value) = line.split_once(':')?;
    if !["allow", "disallow"].contains(&field.to_ascii_lowercase().as_str()) {
        return None;
    }
    let pattern = value.split('#').next()?.trim();
    let filled = pattern.replace('*', "x");
    Some(match filled.strip_suffix('$') {
        Some(whole) => whole.to_string(),
        None => format!("{filled}/news"),
    })
}
