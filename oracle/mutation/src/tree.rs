//! The tree of a function's body.

/// A place in the text: from byte to byte.
#[derive(Clone, Copy, Debug, PartialEq)]
pub struct Span {
    pub start: usize,
    pub end: usize,
}

#[derive(Debug)]
pub struct Expr {
    pub span: Span,
    pub node: Node,
}

#[derive(Debug)]
pub enum Node {
    /// What is copied as it stands: a string, a struct's literal, a macro other than `matches!`.
    Raw,
    Number,
    Path,
    Field(Box<Expr>, String),
    Index(Box<Expr>, Box<Expr>),
    Call(Box<Expr>, Vec<Expr>),
    Method(Box<Expr>, String, Vec<Expr>),
    /// `-`, `!`, `*`, `&` or `&mut `.
    Unary(&'static str, Box<Expr>),
    Binary(String, Box<Expr>, Box<Expr>),
    Range(Option<Box<Expr>>, String, Option<Box<Expr>>),
    Assign(String, Box<Expr>, Box<Expr>),
    If(Condition, Block, Option<Box<Expr>>),
    Match(Box<Expr>, Vec<Arm>),
    Block(Block),
    /// What stands before the thing run through, and the body.
    For(Span, Box<Expr>, Block),
    Return(Option<Box<Expr>>),
    /// `break` or `continue`.
    Leave,
    Array(Vec<Expr>),
    Tuple(Vec<Expr>),
    Paren(Box<Expr>),
    /// The parameters, and the body.
    Closure(Span, Box<Expr>),
    /// `matches!` of a thing and the last names of the patterns.
    Matches(Box<Expr>, Vec<String>),
    Try(Box<Expr>),
}

#[derive(Debug)]
pub enum Condition {
    Is(Box<Expr>),
    /// `let PATTERN =` and the thing.
    Let(Span, Box<Expr>),
}

#[derive(Debug)]
pub struct Arm {
    pub pattern: Span,
    pub guard: Option<Expr>,
    pub body: Expr,
}

#[derive(Debug)]
pub struct Block {
    pub statements: Vec<Statement>,
}

#[derive(Debug)]
pub enum Statement {
    /// `let PATTERN` (with a type, or a constant's name) and what it is at first.
    Let(Span, Option<Expr>),
    /// Ended by a semicolon or not.
    Expr(Expr, bool),
}
