//! Instructions of all rows, counted by callgrind.

use std::hint::black_box;
use std::path::Path;
use std::process::{self, Command};
use std::{env, fs, thread};

use crate::rows::Both;
use crate::sections::Section;
use crate::stop;

/// Only what these do is counted.
const COUNTED: [&str; 9] = [
    "robots_batch",
    "robots_decide_disallow",
    "robots_decide_unread",
    "robots_match_found",
    "robots_normalise",
    "plain_batch",
    "plain_decide",
    "plain_match",
    "plain_normalise",
];

/// Instructions of a question, of library and plain C.
pub type Counts = [f64; 2];

/// Under callgrind: makes one pass of each row and side.
pub fn count(sections: &[Section]) {
    let both = Both::load(0);
    on_a_stack(|| count_all(sections, &both));
}

/// On a stack of its own, since the other begins where the program's variables
/// and arguments end, and memory is cleared by other instructions from another
/// address on.
pub fn on_a_stack(count: impl FnOnce() + Send) {
    thread::scope(|scope| {
        scope.spawn(count);
    });
}

/// Each pass is ended by a call of `pass_ended`, where callgrind writes down
/// what it has counted.
fn count_all(sections: &[Section], both: &Both) {
    for row in sections.iter().flat_map(|section| &section.rows) {
        for side in both.sides() {
            black_box(row.pass(side));
            pass_ended();
        }
        println!("{}", row.questions());
    }
}

/// Callgrind knows it by this name.
#[no_mangle]
#[inline(never)]
pub extern "C" fn pass_ended() {
    black_box(());
}

/// Of what the program counts if it is started with this argument; none where
/// valgrind isn't installed.
pub fn counts(argument: &str) -> Option<Vec<Counts>> {
    let there = Command::new("valgrind").arg("--version").output();
    there.is_ok().then(|| {
        let folder = env::temp_dir().join(format!("robots-benchmark-{}", process::id()));
        fs::create_dir(&folder).unwrap_or_else(|_| {
            stop("no folder can be made: set TMPDIR to a folder that can be written")
        });
        let counts = counts_in(&folder, argument);
        fs::remove_dir_all(&folder).expect("this process has made the folder");
        counts.unwrap_or_else(|fault| stop(&fault))
    })
}

fn counts_in(folder: &Path, argument: &str) -> Result<Vec<Counts>, String> {
    let out = folder.join("out");
    let counted = Command::new("valgrind")
        .arg("--tool=callgrind")
        .arg(format!("--callgrind-out-file={}", out.display()))
        .args(COUNTED.map(|name| format!("--toggle-collect={name}")))
        .arg("--dump-after=pass_ended")
        .arg(env::current_exe().expect("the program has a path"))
        .arg(argument)
        .output()
        .map_err(|fault| fault.to_string())?;
    if !counted.status.success() {
        return Err(String::from_utf8_lossy(&counted.stderr).into_owned());
    }
    // the first pass is written to out.1
    let mut passes = 1..;
    let mut pass = || total(&folder.join(format!("out.{}", passes.next()?)));
    String::from_utf8_lossy(&counted.stdout)
        .lines()
        .map(|questions| {
            let questions: f64 = questions.parse().ok()?;
            Some([pass()? / questions, pass()? / questions])
        })
        .collect::<Option<_>>()
        .ok_or("callgrind wrote no totals".to_string())
}

/// The total that callgrind wrote down.
fn total(file: &Path) -> Option<f64> {
    let text = fs::read_to_string(file).ok()?;
    let total = text.lines().find_map(|line| line.strip_prefix("totals: "));
    total?.trim().parse().ok()
}
