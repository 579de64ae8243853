//! RX by document 01, once more: an implementation without proofs, written from the document
//! alone, that the proved library is run against. One module for each part of the document, in
//! its order; then what the tests and the bench need.

pub mod number;
pub mod policy;
pub mod program;
pub mod rules;

pub mod order;

pub mod flow;

pub mod run;

pub mod damage;
pub mod damage_program;
pub mod encode;
pub mod fast;
pub mod generate;
pub mod generate_memory;
pub mod generate_pair;
pub mod generate_program;
pub mod generate_quotients;
pub mod generate_rules;
pub mod generate_tiny;
pub mod largest;
pub mod loosen;
pub mod proved;
pub mod proved_program;
pub mod rng;
pub mod safe;
pub mod search;
pub mod shapes;
pub mod two_runs;
pub mod worked;
pub mod writer;
