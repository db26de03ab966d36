//! What generated files with many rules have, of those things that matter to the
//! library's rounds.

use evaluator::{Decision, RFC9309};
use generator::BatchCase;

use crate::batching::path_at;
use crate::exchange_rows::Row;
use crate::support::{told, Told};

/// The rules of a round.
const ROUND: usize = 512;

/// The lines of the readable rules that apply, in file order.
pub struct Rules(Vec<usize>);

impl Rules {
    pub fn of(case: &BatchCase) -> Rules {
        let lines = told(&case.file);
        let fields = (1..).zip(&lines).filter(|(_, line)| line.kind >= 4);
        let fields: Vec<(usize, &Told)> = fields.collect();
        // a new group begins with an agent line behind a rule
        let groups = fields.chunk_by(|one, next| one.1.is_agent() || next.1.is_rule());
        let names =
            |group: &[(usize, &Told)], name: &[u8]| group.iter().any(|(_, line)| line.names(name));
        let is_named = groups.clone().any(|group| names(group, &case.name));
        let chosen: &[u8] = if is_named { &case.name } else { b"*" };
        let applying = groups.filter(|group| names(group, chosen)).flatten();
        let readable = applying.filter(|(_, line)| line.kind == 7 || line.kind == 10);
        Rules(readable.map(|(number, _)| *number).collect())
    }

    fn count(&self) -> usize {
        self.0.len()
    }

    fn rounds(&self) -> usize {
        self.count().div_ceil(ROUND)
    }

    /// The place of this line's rule, counted from 0.
    fn place(&self, line: usize) -> Option<usize> {
        self.0.iter().position(|one| *one == line)
    }
}

/// How many rules apply.
pub fn of_rules(rules: &Rules) -> Vec<Row> {
    let is = |number| rules.count() == number;
    let rounds = rules.rounds();
    vec![
        (true, "answered lists", 1_200),
        (is(0), "0 rules", 30),
        (is(1), "1 rule", 25),
        (is(511), "511 rules", 20),
        (is(512), "512 rules", 20),
        (is(513), "513 rules", 15),
        (is(1_023), "1,023 rules", 15),
        (is(1_024), "1,024 rules", 15),
        (is(1_025), "1,025 rules", 15),
        (rounds == 1, "1 round", 250),
        (rounds == 2, "2 rounds", 300),
        (rounds == 3, "3 rounds", 250),
        (rounds == 4, "4 rounds", 130),
        (rounds > 5, "6 rounds or more", 50),
    ]
}

/// Where the deciding rule stands among those that apply, in a file of several
/// rounds.
pub fn of_deciding(rules: &Rules, line: usize) -> Vec<Row> {
    let several = rules.rounds() > 1;
    let place = rules.place(line).filter(|_| several);
    let by_none = several && place.is_none();
    let at = place.unwrap_or(1);
    let first = place.is_some() && at < ROUND;
    let begins_round = at >= ROUND && at % ROUND == 0;
    vec![
        (true, "paths", 5_000),
        (by_none, "by no rule of several rounds", 1_200),
        (first, "in the first of several rounds", 1_200),
        (at >= ROUND, "in a later round", 500),
        (at >= 2 * ROUND, "past the second round", 150),
        (at % ROUND == ROUND - 1, "by the last of a round", 60),
        (begins_round, "by the first of a later round", 70),
        (several && at + 1 == rules.count(), "by the last of all", 50),
    ]
}

/// Which rule would decide in place of the one that does, where that stands in
/// another round.
pub fn of_second(case: &BatchCase, rules: &Rules, place: usize) -> Vec<Row> {
    let second = second(case, rules, place);
    let has = |test: fn(&Second) -> bool| second.as_ref().is_some_and(test);
    let of_rfc = case.dialect == RFC9309;
    let tie = of_rfc && has(|one| one.is_tie);
    let both = of_rfc && has(|one| one.is_tie && one.is_opposed);
    let allow = both && has(|one| one.is_earlier);
    let lighter = of_rfc && has(|one| !one.is_tie && one.is_earlier);
    let later = of_rfc && has(|one| !one.is_tie && !one.is_earlier);
    let again = !of_rfc && second.is_some();
    vec![
        (tie, "RFC: a tie across rounds", 200),
        (both, "RFC: a tie of both sides", 80),
        (allow, "RFC: allow before an earlier disallow", 60),
        (lighter, "RFC: a lighter match in an earlier round", 110),
        (later, "RFC: a lighter match in a later round", 70),
        (again, "draft: a match in a later round too", 90),
    ]
}

/// The rule that would decide if the deciding one weren't there.
struct Second {
    /// It weighs the same.
    is_tie: bool,
    /// It is on the other side.
    is_opposed: bool,
    /// It stands in an earlier round.
    is_earlier: bool,
}

/// None if no rule decides, or if both stand in one round.
fn second(case: &BatchCase, rules: &Rules, place: usize) -> Option<Second> {
    if rules.rounds() < 2 {
        return None;
    }
    let mut file = case.file.clone();
    let decide = |file: &[u8]| {
        let path = path_at(case, place);
        evaluator::decide_in(case.dialect, file, &case.name, path)
    };
    let round = |decision: &Decision| rules.place(decision.line).map(|at| at / ROUND);
    let one = decide(&file);
    let first = round(&one)?;
    // its pattern is unreadable then
    file[one.place] = b'x';
    let other = decide(&file);
    let second = round(&other)?;
    let of = |Decision { place, length, .. }: Decision| weight(&case.file[place..place + length]);
    (first != second).then(|| Second {
        is_tie: of(one) == of(other),
        is_opposed: one.disallow != other.disallow,
        is_earlier: second < first,
    })
}

/// "its normalised octets, with one for each star and one for the end mark", which
/// are three octets each in a path.
fn weight(pattern: &[u8]) -> usize {
    let stars = pattern.iter().filter(|octet| **octet == b'*').count();
    let end_mark = usize::from(pattern.ends_with(b"$"));
    generator::normal_length(pattern) - 2 * (stars + end_mark)
}
