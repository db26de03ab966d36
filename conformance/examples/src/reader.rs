//! From the text of a data file to rows.

use crate::octets::unescape;
use crate::{answer, is_id, Example, Expected, Malformed, Printed, Question};
use evaluator::{DRAFT1996, RFC9309};

const INDENT: &str = "    ";

/// The rules file of the rows below.
enum Rules {
    None,
    Open(Vec<u8>),
    Whole(Vec<u8>),
}

struct Reader<'a> {
    source: &'a str,
    place: Option<&'a str>,
    rules: Rules,
    rows: Vec<Example>,
}

type Asked = (Question, Printed, Expected);

/// The rows of one data file, or its first fault.
pub fn read(source: &str, text: &str) -> Result<Vec<Example>, Malformed> {
    let fault = |line, reason| Malformed {
        file: source.to_string(),
        line,
        reason,
    };
    let mut reader = Reader {
        source,
        place: None,
        rules: Rules::None,
        rows: Vec::new(),
    };
    for (index, line) in text.lines().enumerate() {
        let done = reader.line(index + 1, line);
        done.map_err(|reason| fault(index + 1, reason))?;
    }
    if matches!(reader.rules, Rules::Open(_)) {
        let reason = "the rules file has no end".to_string();
        return Err(fault(text.lines().count(), reason));
    }
    Ok(reader.rows)
}

impl<'a> Reader<'a> {
    fn line(&mut self, number: usize, line: &'a str) -> Result<(), String> {
        if let Rules::Open(file) = &mut self.rules {
            if line != "end" {
                return add_rule_line(file, line);
            }
            self.rules = Rules::Whole(std::mem::take(file));
            return Ok(());
        }
        if line.is_empty() || line.starts_with('#') {
            return Ok(());
        }
        if line == "rules" {
            return self.open_rules();
        }
        match line.strip_prefix("at ") {
            Some(place) => self.start(place.trim()),
            None => self.row(number, line),
        }
    }

    fn start(&mut self, place: &'a str) -> Result<(), String> {
        if place.is_empty() {
            return Err("at without a place".to_string());
        }
        self.place = Some(place);
        self.rules = Rules::None;
        Ok(())
    }

    fn open_rules(&mut self) -> Result<(), String> {
        match self.rules {
            Rules::None if self.place.is_some() => {
                self.rules = Rules::Open(Vec::new());
                Ok(())
            }
            Rules::None => Err("a rules file before any at".to_string()),
            _ => Err("a second rules file under one at".to_string()),
        }
    }

    fn row(&mut self, number: usize, line: &str) -> Result<(), String> {
        let place = self.place.ok_or("a row before any at")?;
        let columns: Vec<&str> = line.split('|').map(str::trim).collect();
        let (question, printed, expected) = self.ask(&columns)?;
        let id = columns[1];
        if !is_id(id) {
            return Err(format!("no id: {id}"));
        }
        if self.rows.iter().any(|row| row.id == id) {
            return Err(format!("the id {id} stands twice"));
        }
        self.rows.push(Example {
            id: id.to_string(),
            source: self.source.to_string(),
            row: number,
            place: place.to_string(),
            question,
            printed,
            expected,
        });
        Ok(())
    }

    fn ask(&self, columns: &[&str]) -> Result<Asked, String> {
        match *columns {
            [word @ ("decide" | "draft"), _, name, path, printed, answer, pattern] => {
                let Rules::Whole(file) = &self.rules else {
                    return Err(format!("{word} without a rules file"));
                };
                let asked = ask_decide(file, [name, path], printed, [answer, pattern])?;
                Ok(if word == "draft" {
                    in_draft(asked)
                } else {
                    asked
                })
            }
            ["match", _, pattern, path, printed, answer] => {
                let (pattern, path) = (unescape(pattern)?, unescape(path)?);
                let printed = answer::printed_match(printed)?;
                let expected = answer::matched(answer)?;
                Ok((Question::Match { pattern, path }, printed, expected))
            }
            ["normalise", _, path, printed, answer] => {
                let path = unescape(path)?;
                let printed = answer::printed_path(printed)?;
                let expected = answer::normalised(answer)?;
                Ok((Question::Normalise { path }, printed, expected))
            }
            ["line", _, line, printed, answer] => {
                let line = unescape(line)?;
                let printed = answer::printed_kind(printed)?;
                let expected = answer::line_kind(answer)?;
                Ok((Question::Line { line }, printed, expected))
            }
            _ => Err("neither a row nor any other known line".to_string()),
        }
    }
}

fn ask_decide(
    file: &[u8],
    [name, path]: [&str; 2],
    printed: &str,
    [answer, pattern]: [&str; 2],
) -> Result<Asked, String> {
    let printed = answer::printed_decision(printed)?;
    let expected = answer::decision(answer, pattern, file)?;
    let question = Question::Decide {
        dialect: RFC9309,
        file: file.to_vec(),
        name: unescape(name)?,
        path: unescape(path)?,
    };
    Ok((question, printed, expected))
}

/// The same in the dialect of 1996.
fn in_draft((mut question, printed, expected): Asked) -> Asked {
    if let Question::Decide { dialect, .. } = &mut question {
        *dialect = DRAFT1996;
    }
    (question, printed, expected)
}

fn add_rule_line(file: &mut Vec<u8>, line: &str) -> Result<(), String> {
    if !line.is_empty() {
        let text = line.strip_prefix(INDENT);
        let text = text.ok_or("a line of a rules file isn't moved in")?;
        file.extend(unescape(text)?);
    }
    file.push(b'\n');
    Ok(())
}
