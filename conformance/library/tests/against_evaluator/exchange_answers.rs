//! What the answers to a question are, before an exchange and after it.

use evaluator::Decision;
use generator::{Parts, Question};

use crate::exchange_rows::Row;
use crate::support::{sides_changed, told};

/// A question with its two files and their answers.
pub struct Answered<'a> {
    pub question: &'a Question,
    pub files: &'a [Vec<u8>; 2],
    pub answers: [Decision; 2],
}

impl Answered<'_> {
    /// The answer, which both files have.
    pub fn sorts(&self) -> Vec<Row> {
        let answer = &self.answers[0];
        let refused = |number| answer.refusal == number;
        let is_answered = refused(0);
        let by_rule = answer.line > 0;
        let is_robots_txt = is_answered && is_robots_txt(&self.question.path);
        vec![
            (true, "questions", 150_000),
            (is_answered, "answered", 140_000),
            (is_answered && !answer.disallow, "allow", 40_000),
            (is_answered && answer.disallow, "disallow", 40_000),
            (is_answered && !by_rule, "allow by no rule", 20_000),
            (by_rule && !answer.disallow, "allow by a rule", 25_000),
            (is_robots_txt, "/robots.txt", 3_000),
            (answer.unread > 0, "unread lines", 60_000),
            (self.is_tie(), "equal weights, allow and disallow", 8_000),
            (refused(2), "refusal 2", 1_400),
            (refused(3), "refusal 3", 400),
            (refused(4), "refusal 4", 300),
            (refused(5), "refusal 5", 500),
        ]
    }

    /// Which rule decides.
    pub fn deciding(&self, parts: &Parts) -> Vec<Row> {
        let [before, after] = &self.answers;
        let start = parts.mark.len() + parts.front.len();
        let middle = start + parts.one.len();
        let end = middle + parts.two.len();
        let by_rule = before.line > 0;
        let in_one = by_rule && (start..middle).contains(&before.place);
        let in_two = by_rule && (middle..end).contains(&before.place);
        let elsewhere = by_rule && !in_one && !in_two;
        let moved = match before.place {
            place if in_one => place + parts.two.len(),
            place if in_two => place - parts.one.len(),
            place => place,
        };
        vec![
            (in_one, "a rule of one decides", 20_000),
            (in_two, "a rule of two decides", 20_000),
            (elsewhere, "a rule elsewhere decides", 15_000),
            (before.line != after.line, "another line decides", 40_000),
            (moved != after.place, "another rule decides", 2_000),
            (self.is_spelt_anew(), "another pattern decides", 1_000),
        ]
    }

    /// Whether the deciding rules' octets differ.
    fn is_spelt_anew(&self) -> bool {
        let pattern = |at: usize| {
            let Decision { place, length, .. } = self.answers[at];
            &self.files[at][place..place + length]
        };
        pattern(0) != pattern(1)
    }

    /// Whether an allow rule and a disallow rule of equal weight are the heaviest
    /// that match: then a rule allows, and one does with all sides changed over.
    fn is_tie(&self) -> bool {
        let answer = &self.answers[0];
        if answer.line == 0 || answer.disallow {
            return false;
        }
        let changed = sides_changed(&told(&self.files[0]));
        let answer = evaluator::decide(&changed, &self.question.name, &self.question.path);
        answer.line > 0 && !answer.disallow
    }
}

pub fn is_robots_txt(path: &[u8]) -> bool {
    let mut buffer = [0; 64];
    let written = evaluator::normalise(path, &mut buffer).written;
    buffer[..written] == *b"/robots.txt"
}
