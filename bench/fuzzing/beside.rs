//! The port's answers beside the original's.

use crate::reasons::{AGREED, Reason, list_reason, reason};
use crate::{lists, original};
use crate::typed::{self, Answer};
use std::collections::BTreeMap;

/// How often which came.
#[derive(Default)]
pub struct Compared {
    answers: u64,
    whole: u64,
    reasons: BTreeMap<Reason, u64>,
}

impl Compared {
    fn count(&mut self, why: Option<Reason>, has_value: bool, said: impl Fn() -> String) -> Result<(), String> {
        let Some(why) = why else {
            return Err(said());
        };
        self.answers += 1;
        if why == AGREED {
            self.whole += u64::from(has_value);
        } else {
            *self.reasons.entry(why).or_default() += 1;
        }
        Ok(())
    }

    fn of_answers(&mut self, name: &str, bytes: &[u8], form: u32, port: &Answer, other: &Answer) -> Result<(), String> {
        let why = reason(name, bytes, form, port, other);
        let has_value = matches!(port, Answer::Whole { .. });
        self.count(why, has_value, || format!("{name}, in form {form}: {port:?}, and the original {other:?}"))
    }

    /// Compares what the port answered for a type.
    pub fn of_type(&mut self, kind: usize, bytes: &[u8], form: u32, port: &Answer) -> Result<(), String> {
        let (name, call) = original::TYPES[kind];
        assert_eq!(name, typed::TYPES[kind]);
        self.of_answers(name, bytes, form, port, &call(bytes, form))
    }

    /// Compares what it answered where the message was passed over.
    pub fn of_skip(&mut self, bytes: &[u8], port: &Answer) -> Result<(), String> {
        self.of_answers("skip", bytes, 0, port, &original::skip(bytes))
    }

    /// Compares how many elements it read of a list.
    pub fn of_list(&mut self, name: &str, bytes: &[u8], port: usize) -> Result<(), String> {
        let other = lists::length(name, bytes);
        let why = list_reason(name, bytes, port, other);
        self.count(why, port > 0, || format!("{name}: {port} elements, and the original {other}"))
    }

    pub fn print(&self) {
        let differing: u64 = self.reasons.values().sum();
        let agreed = self.answers - differing;
        println!("{} answers beside the original's: {agreed} agree, {} of them with a value", self.answers, self.whole);
        for (why, count) in &self.reasons {
            println!("{count} differ as documented: {why}");
        }
    }
}
