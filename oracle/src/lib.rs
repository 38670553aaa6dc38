//! The unchanged Rust of deno_graph's declaration transform as the judge of
//! the port: record trees go in as swc's syntax trees and come back as records.

pub mod answers;
pub mod call;
pub mod decode;
pub mod depths;
pub mod dotted;
pub mod encode;
pub mod fast_check;
pub mod generate;
pub mod grammar;
pub mod leaves;
pub mod lines;
pub mod measure;
pub mod notation;
pub mod notes;
pub mod part;
pub mod record;
pub mod text;
pub mod types;
