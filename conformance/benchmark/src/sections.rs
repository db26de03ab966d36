//! The sections of the table, with their rows.

use evaluator::DRAFT1996;

use crate::rows::{Asked, Pair, Row};
use crate::sites::Site;
use crate::{deciding, growth, others, patterns, shapes, sites, small};

pub struct Section {
    pub title: &'static str,
    /// What the rows' units are, if a time for each is wanted.
    pub unit: Option<&'static str>,
    pub rows: Vec<Row>,
    /// Whether it is drawn, and so asked of the evaluator too.
    pub drawn: bool,
}

/// The first one is drawn.
pub fn all() -> Vec<Section> {
    let octets = |title, rows| section(title, Some("octet"), rows);
    vec![
        Section {
            drawn: true,
            ..octets("files", files(sites::all()))
        },
        octets("files not tuned on", files(others::all())),
        octets("the unread count", unread(sites::all(), others::all())),
        octets("files, by the draft of 1996", draft(sites::all())),
        octets("shapes", shapes::named()),
        section("small questions", None, small::rows()),
        section("matching, normalising", None, patterns::rows()),
        octets("growth: octets of the file", growth::sizes()),
        section("growth: rules that apply", Some("rule"), growth::rules()),
        octets("growth: octets of the path", growth::paths()),
        section("growth: stars of a rule", Some("star"), growth::stars()),
    ]
}

fn section(title: &'static str, unit: Option<&'static str>, rows: Vec<Row>) -> Section {
    Section {
        title,
        unit,
        rows,
        drawn: false,
    }
}

fn files(sites: [Site; 5]) -> Vec<Row> {
    sites.map(file).into()
}

/// The same files, read whole.
fn unread(sites: [Site; 5], others: [Site; 5]) -> Vec<Row> {
    let sites = sites.into_iter().chain(others);
    sites.map(|site| counting(file(site))).collect()
}

/// The files in the dialect of 1996.
fn draft(sites: [Site; 5]) -> Vec<Row> {
    sites.map(|site| in_draft(file(site))).into()
}

fn in_draft(row: Row) -> Row {
    match row.asked {
        Asked::Decide(_, file, pairs) => Row {
            asked: Asked::Decide(DRAFT1996, file, pairs),
            ..row
        },
        _ => row,
    }
}

fn counting(row: Row) -> Row {
    match row.asked {
        Asked::Decide(_, file, pairs) => Row {
            asked: Asked::Unread(file, pairs),
            ..row
        },
        _ => row,
    }
}

fn file(site: Site) -> Row {
    let pair = |(name, path): (&[u8], &[u8])| (name.to_vec(), path.to_vec());
    let pairs: Vec<Pair> = deciding::questions(&site).into_iter().map(pair).collect();
    Row::deciding(site.name, site.file, pairs)
}
