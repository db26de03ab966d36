//! The plain evaluator against the independent one, all numbers.
//!
//! The library's tests of deciding, matching and normalising are taken as they
//! stand and asked of the plain evaluator: what they call `library` is this
//! crate.

extern crate self as library;

#[path = "../../../library/tests/against_evaluator/agent_values.rs"]
mod agent_values;
#[path = "../../../library/tests/against_evaluator/ask.rs"]
mod ask;
mod cases;
#[path = "../../../library/tests/against_evaluator/decide_files.rs"]
mod decide_files;
#[path = "../../../library/tests/against_evaluator/decide_groups.rs"]
mod decide_groups;
#[path = "../../../library/tests/against_evaluator/decide_limits.rs"]
mod decide_limits;
#[path = "../../../library/tests/against_evaluator/decide_memory.rs"]
mod decide_memory;
#[path = "../../../library/tests/against_evaluator/decide_octets.rs"]
mod decide_octets;
#[path = "../../../library/tests/against_evaluator/decide_refusals.rs"]
mod decide_refusals;
#[path = "../../../library/tests/against_evaluator/deciding.rs"]
mod deciding;
#[path = "../../../library/tests/against_evaluator/definition_lists.rs"]
mod definition_lists;
#[path = "../../../library/tests/against_evaluator/dense.rs"]
mod dense;
#[path = "../../../library/tests/against_evaluator/draft.rs"]
mod draft;
#[path = "../../../library/tests/against_evaluator/generated_paths.rs"]
mod generated_paths;
mod list_refusals;
mod list_tables;
mod lists;
#[path = "../../../library/tests/against_evaluator/match_limits.rs"]
mod match_limits;
#[path = "../../../library/tests/against_evaluator/match_refusals.rs"]
mod match_refusals;
mod numbers;
#[path = "../../../library/tests/against_evaluator/path_octets.rs"]
mod path_octets;
#[path = "../../../library/tests/against_evaluator/path_refusals.rs"]
mod path_refusals;
#[path = "../../../library/tests/against_evaluator/pattern_octets.rs"]
mod pattern_octets;
#[path = "../../../library/tests/against_evaluator/small_files.rs"]
mod small_files;
#[path = "../../../library/tests/against_evaluator/small_patterns.rs"]
mod small_patterns;
#[allow(dead_code)]
#[path = "../../../library/tests/against_evaluator/texts.rs"]
mod texts;
#[path = "../../../library/tests/against_evaluator/walks.rs"]
mod walks;

pub use numbers::*;
