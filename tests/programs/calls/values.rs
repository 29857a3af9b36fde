//! What the public calls of `rmp_serde` come to.
mod canonical;
mod check;
mod example;
mod explained;
mod floats;
mod found;
mod making;
mod messages;
mod own_types;
mod parts;
mod pushing;
mod raw;
mod reads;
mod scan;
mod text;
mod times;
