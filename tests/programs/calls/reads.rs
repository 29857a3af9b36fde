//! What is read by the public calls of `rmp_decode`.
mod accesses;
mod claims;
mod content;
mod depths;
mod errors;
mod failing;
mod fields;
mod interrupted;
mod leaves;
mod missing;
mod names;
mod one_by_one;
mod readers;
mod rows;
mod types;
mod variants;
