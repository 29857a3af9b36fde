//! Calls over bytes, by their names, and loads of them.

use super::measure::{Answer, Load};

/// A call goes so many times over its bytes, and answers the elements of all rounds, or the bytes of the last one.
pub type OfBytes = fn(&[u8], u32) -> usize;

/// The calls that are measured, by their names.
pub struct Calls(pub Vec<(&'static str, OfBytes)>);

impl Calls {
    fn named(&self, name: &str) -> OfBytes {
        let call = self.0.iter().find(|call| call.0 == name);
        call.expect("a call of that name").1
    }
}

/// A load of so many elements, by the call of a name.
pub fn call_over(
    name: String,
    call: String,
    count: usize,
    data: Vec<u8>,
    answer: Answer,
) -> Load<Calls> {
    let found: &'static str = String::leak(call);
    Load {
        name: String::leak(name),
        count,
        work: Box::new(move |calls: &Calls, reps| calls.named(found)(&data, reps) as u64),
        answer,
    }
}
