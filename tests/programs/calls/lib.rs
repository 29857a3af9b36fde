//! What the public calls of the libraries come to: tests that are run and not proved.
#![tactic(auto)]

#[cfg(test)]
mod cache;
#[cfg(test)]
mod derived;
#[cfg(test)]
mod dirs;
#[cfg(test)]
mod frames;
#[cfg(test)]
mod lines;
#[cfg(test)]
mod nodes;
#[cfg(test)]
mod notes;
#[cfg(test)]
mod reads;
#[cfg(test)]
mod records;
#[cfg(test)]
mod recursive;
#[cfg(test)]
mod streams;
#[cfg(test)]
mod tasks;
#[cfg(test)]
mod values;
#[cfg(test)]
mod wide;
#[cfg(test)]
mod wire;
#[cfg(test)]
mod writes;
