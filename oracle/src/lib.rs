//! Another implementation of the document: circuits as signals over time, and from them the
//! expected output of scripts that are played on the proved entries.

pub mod amounts;
pub mod arity;
pub mod bad_codes;
pub mod bad_files;
pub mod bad_tables;
pub mod circuits;
pub mod clip_cases;
pub mod clocks;
pub mod column;
pub mod empty_feedback;
pub mod engine;
pub mod entries;
pub mod flat;
pub mod generate;
pub mod good_cases;
pub mod graph;
pub mod join;
pub mod join_cases;
pub mod limit_cases;
pub mod meaning;
pub mod parse;
pub mod play_cases;
pub mod probe_cases;
pub mod probes;
pub mod programs;
pub mod random;
pub mod random_codes;
pub mod samples;
pub mod scene;
pub mod script;
pub mod translate;
