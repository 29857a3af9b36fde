//! What lines of hex come to by the public calls of `canon_lines`.
mod check;
mod run;
mod show;
