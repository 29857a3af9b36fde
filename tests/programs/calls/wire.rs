//! What the public calls of `rmp_wire` come to.
mod faults;
mod heads;
mod pieces;
mod streams;
mod writes;
