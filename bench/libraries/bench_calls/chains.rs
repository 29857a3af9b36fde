//! Types that contain themselves.
mod derived;

/// A number, and the next one.
#[derive(Drop)]
pub struct Chain {
    pub at: u32,
    pub next: Option<Box<Chain>>,
}

/// An expression over numbers.
#[derive(Drop)]
pub enum Expr {
    Number(u32),
    Negated(Box<Expr>),
    Sum(Box<Expr>, Box<Expr>),
}
