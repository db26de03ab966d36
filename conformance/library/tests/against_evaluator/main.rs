//! The library, called through its C interface, against the independent
//! evaluator and the examples of the sources.

mod agent_values;
mod ask;
mod batch;
mod batch_generated;
mod batch_memory;
mod batch_rounds;
mod batch_rows;
mod batch_rules;
mod batching;
mod decide_files;
mod decide_groups;
mod decide_limits;
mod decide_memory;
mod decide_octets;
mod decide_refusals;
mod deciding;
mod definition_lists;
mod definition_rows;
mod dense;
mod draft;
mod exchange;
mod exchange_answers;
mod exchange_examples;
mod exchange_hypotheses;
mod exchange_rows;
mod generated;
mod generated_paths;
mod limits;
mod line_octets;
mod match_limits;
mod match_refusals;
mod path_octets;
mod path_refusals;
mod pattern_octets;
mod small_files;
mod small_patterns;
mod source_examples;
#[allow(dead_code)]
#[path = "../../../generator/tests/support/mod.rs"]
mod support;
mod texts;
mod walks;
