//! What is in the place of beside.rs where there is no original to compare with.

use crate::typed::Answer;

#[derive(Default)]
pub struct Compared;

impl Compared {
    pub fn of_type(&mut self, _kind: usize, _bytes: &[u8], _form: u32, _port: &Answer) -> Result<(), String> {
        Ok(())
    }

    pub fn of_skip(&mut self, _bytes: &[u8], _port: &Answer) -> Result<(), String> {
        Ok(())
    }

    pub fn of_list(&mut self, _name: &str, _bytes: &[u8], _port: usize) -> Result<(), String> {
        Ok(())
    }

    pub fn print(&self) {}
}
