//! From tokens to trees: precedence climbing over the part of Rust that the mutated functions are written in.
//! Whatever else occurs stops the build.

use crate::tokens::{Kind, Token};
use crate::tree::{Arm, Block, Condition, Expr, Node, Span, Statement};

pub struct Parser<'a> {
    tokens: &'a [Token<'a>],
    at: usize,
    /// Whether `{` can follow a path as a struct's literal: not in conditions.
    structs: bool,
}

/// The binary operators by precedence.
const BINARY: [(&str, u8); 12] = [
    ("||", 1),
    ("&&", 2),
    ("==", 3),
    ("!=", 3),
    ("<", 3),
    (">", 3),
    ("<=", 3),
    (">=", 3),
    ("+", 4),
    ("-", 4),
    ("*", 5),
    ("/", 5),
];
const REMAINDER: (&str, u8) = ("%", 5);
const ASSIGNMENTS: [&str; 5] = ["=", "+=", "-=", "*=", "/="];

impl<'a> Parser<'a> {
    /// A parser at a token.
    pub fn new(tokens: &'a [Token<'a>], at: usize) -> Self {
        Parser {
            tokens,
            at,
            structs: true,
        }
    }

    /// The number of the token that comes next.
    pub fn at(&self) -> usize {
        self.at
    }

    fn peek(&self) -> Token<'a> {
        self.tokens[self.at]
    }

    fn next(&mut self) -> Token<'a> {
        self.at += 1;
        self.tokens[self.at - 1]
    }

    fn sees(&self, text: &str) -> bool {
        self.peek().text == text
    }

    fn takes(&mut self, text: &str) -> bool {
        let seen = self.sees(text);
        self.at += usize::from(seen);
        seen
    }

    fn expect(&mut self, text: &str) {
        let token = self.next();
        assert!(
            token.text == text,
            "`{text}` expected at byte {}, not `{}`",
            token.start,
            token.text
        );
    }

    fn span_from(&self, start: usize) -> Span {
        Span {
            start,
            end: self.tokens[self.at - 1].end(),
        }
    }

    fn made(&self, start: usize, node: Node) -> Expr {
        Expr {
            span: self.span_from(start),
            node,
        }
    }

    /// Everything up to a text that stands outside brackets.
    fn raw_until(&mut self, ends: &[&str]) -> Span {
        let start = self.peek().start;
        let mut depth = 0;
        while depth > 0 || !ends.contains(&self.peek().text) {
            match self.next().text {
                "(" | "[" | "{" => depth += 1,
                ")" | "]" | "}" => depth -= 1,
                _ => (),
            }
        }
        self.span_from(start)
    }

    pub fn block(&mut self) -> Block {
        self.expect("{");
        let outside = std::mem::replace(&mut self.structs, true);
        let mut statements = Vec::new();
        while !self.takes("}") {
            statements.push(self.statement());
        }
        self.structs = outside;
        Block { statements }
    }

    fn statement(&mut self) -> Statement {
        while self.takes("#") {
            self.bracketed();
        }
        if self.sees("let") || self.sees("const") {
            self.next();
            let pattern = self.raw_until(&["=", ";"]);
            let first = self.takes("=").then(|| self.expr());
            self.expect(";");
            return Statement::Let(pattern, first);
        }
        let is_block_like = ["if", "match", "for", "{"].contains(&self.peek().text)
            || self.peek().text.starts_with('\'');
        let expr = if is_block_like {
            self.primary()
        } else {
            self.expr()
        };
        let ended = self.takes(";");
        Statement::Expr(expr, ended)
    }

    /// Passes over a bracket and all in it.
    fn bracketed(&mut self) {
        self.next();
        self.raw_until(&["]", ")", "}"]);
        self.next();
    }

    pub fn expr(&mut self) -> Expr {
        let start = self.peek().start;
        let place = self.range();
        let operator = self.peek().text;
        if ASSIGNMENTS.contains(&operator) {
            self.next();
            let value = self.expr();
            return self.made(
                start,
                Node::Assign(operator.to_string(), Box::new(place), Box::new(value)),
            );
        }
        place
    }

    fn range(&mut self) -> Expr {
        let start = self.peek().start;
        let left = (!self.sees("..")).then(|| self.binary(1));
        let operator = self.peek().text;
        if operator != ".." && operator != "..=" {
            return left.expect("an operand");
        }
        self.next();
        let ends = ["]", ")", "{"].contains(&self.peek().text);
        let right = (!ends).then(|| Box::new(self.binary(1)));
        self.made(
            start,
            Node::Range(left.map(Box::new), operator.to_string(), right),
        )
    }

    fn binary(&mut self, least: u8) -> Expr {
        let start = self.peek().start;
        let mut left = self.unary();
        loop {
            let operator = self.peek().text;
            let known = BINARY
                .into_iter()
                .chain([REMAINDER])
                .find(|(known, _)| *known == operator);
            let Some((_, precedence)) = known.filter(|(_, precedence)| *precedence >= least) else {
                return left;
            };
            self.next();
            let right = self.binary(precedence + 1);
            left = self.made(
                start,
                Node::Binary(operator.to_string(), Box::new(left), Box::new(right)),
            );
        }
    }

    fn unary(&mut self) -> Expr {
        let start = self.peek().start;
        let operator = match self.peek().text {
            "-" => "-",
            "!" => "!",
            "*" => "*",
            "&" => "&",
            _ => return self.postfix(),
        };
        self.next();
        let operator = if operator == "&" && self.takes("mut") {
            "&mut "
        } else {
            operator
        };
        let operand = self.unary();
        self.made(start, Node::Unary(operator, Box::new(operand)))
    }

    fn postfix(&mut self) -> Expr {
        let start = self.peek().start;
        let mut expr = self.primary();
        loop {
            if self.takes("?") {
                expr = self.made(start, Node::Try(Box::new(expr)));
            } else if self.takes("[") {
                let index = self.inside(|parser| parser.expr());
                self.expect("]");
                expr = self.made(start, Node::Index(Box::new(expr), Box::new(index)));
            } else if self.sees("(") {
                let arguments = self.arguments();
                expr = self.made(start, Node::Call(Box::new(expr), arguments));
            } else if self.takes(".") {
                let name = self.next().text.to_string();
                if self.sees("(") {
                    let arguments = self.arguments();
                    expr = self.made(start, Node::Method(Box::new(expr), name, arguments));
                } else {
                    expr = self.made(start, Node::Field(Box::new(expr), name));
                }
            } else {
                return expr;
            }
        }
    }

    /// Within brackets struct literals are clear again.
    fn inside<T>(&mut self, parse: impl FnOnce(&mut Self) -> T) -> T {
        let outside = std::mem::replace(&mut self.structs, true);
        let parsed = parse(self);
        self.structs = outside;
        parsed
    }

    fn arguments(&mut self) -> Vec<Expr> {
        self.expect("(");
        self.list(")")
    }

    fn list(&mut self, end: &str) -> Vec<Expr> {
        let mut found = Vec::new();
        while !self.takes(end) {
            found.push(self.inside(|parser| parser.expr()));
            if !self.sees(end) {
                self.expect(",");
            }
        }
        found
    }

    fn primary(&mut self) -> Expr {
        let token = self.peek();
        let start = token.start;
        let node = match (token.kind, token.text) {
            (Kind::Number, _) => {
                self.next();
                Node::Number
            }
            (Kind::Other, text) if text.starts_with('\'') => {
                self.next();
                self.expect(":");
                self.expect("for");
                self.rest_of_for(start)
            }
            (Kind::Mark, "(") => self.parenthesis(),
            (Kind::Mark, "[") => self.array(),
            (Kind::Mark, "{") => Node::Block(self.block()),
            (Kind::Mark, "|") => self.closure(),
            (Kind::Name, "if") => self.rest_of_if(),
            (Kind::Name, "match") => self.rest_of_match(),
            (Kind::Name, "for") => {
                self.next();
                self.rest_of_for(start)
            }
            (Kind::Name, "return") => {
                self.next();
                let ends = [";", "}", ","].contains(&self.peek().text);
                Node::Return((!ends).then(|| Box::new(self.expr())))
            }
            (Kind::Name, "break" | "continue") => {
                self.next();
                if self.peek().text.starts_with('\'') {
                    self.next();
                }
                Node::Leave
            }
            (Kind::Name, _) => self.path(),
            _ => panic!("`{}` at byte {start} is not understood", token.text),
        };
        self.made(start, node)
    }

    fn path(&mut self) -> Node {
        let name = self.next().text;
        while self.takes("::") {
            // A turbofish is copied.
            if self.takes("<") {
                self.raw_until(&[">"]);
                self.expect(">");
            } else {
                self.next();
            }
        }
        if self.sees("!") && self.tokens[self.at + 1].text == "(" {
            self.next();
            return self.rest_of_macro(name);
        }
        let named = name.starts_with(|letter: char| letter.is_ascii_uppercase());
        if named && self.structs && self.sees("{") {
            self.bracketed();
            return Node::Raw;
        }
        Node::Path
    }

    fn rest_of_macro(&mut self, name: &str) -> Node {
        if name != "matches" {
            self.bracketed();
            return Node::Raw;
        }
        self.expect("(");
        let thing = self.inside(|parser| parser.expr());
        self.expect(",");
        let mut names = Vec::new();
        while !self.takes(")") {
            let token = self.next();
            let ends = ["|", ",", ")"].contains(&self.peek().text);
            if token.kind == Kind::Name && ends {
                names.push(token.text.to_string());
            }
        }
        Node::Matches(Box::new(thing), names)
    }

    fn parenthesis(&mut self) -> Node {
        self.expect("(");
        if self.takes(")") {
            return Node::Tuple(Vec::new());
        }
        let first = self.inside(|parser| parser.expr());
        if self.takes(")") {
            return Node::Paren(Box::new(first));
        }
        self.expect(",");
        let mut all = vec![first];
        all.extend(self.list(")"));
        Node::Tuple(all)
    }

    /// A list; a repeated element is copied.
    fn array(&mut self) -> Node {
        let start = self.at;
        self.expect("[");
        self.raw_until(&[",", ";", "]"]);
        if self.sees(";") {
            self.raw_until(&["]"]);
            self.expect("]");
            return Node::Raw;
        }
        self.at = start + 1;
        Node::Array(self.list("]"))
    }

    fn closure(&mut self) -> Node {
        let start = self.peek().start;
        self.expect("|");
        self.raw_until(&["|"]);
        self.expect("|");
        let parameters = self.span_from(start);
        Node::Closure(parameters, Box::new(self.expr()))
    }

    /// What stands before a body: there no struct's literal can.
    fn before_body<T>(&mut self, parse: impl FnOnce(&mut Self) -> T) -> T {
        let outside = std::mem::replace(&mut self.structs, false);
        let parsed = parse(self);
        self.structs = outside;
        parsed
    }

    fn rest_of_if(&mut self) -> Node {
        self.expect("if");
        let start = self.peek().start;
        let condition = if self.takes("let") {
            self.raw_until(&["="]);
            self.expect("=");
            let pattern = self.span_from(start);
            Condition::Let(pattern, Box::new(self.before_body(|parser| parser.expr())))
        } else {
            Condition::Is(Box::new(self.before_body(|parser| parser.expr())))
        };
        let then = self.block();
        let otherwise = self.takes("else").then(|| Box::new(self.primary()));
        Node::If(condition, then, otherwise)
    }

    fn rest_of_match(&mut self) -> Node {
        self.expect("match");
        let thing = self.before_body(|parser| parser.expr());
        self.expect("{");
        let mut arms = Vec::new();
        while !self.takes("}") {
            let pattern = self.raw_until(&["=>", "if"]);
            let guard = self.takes("if").then(|| self.expr());
            self.expect("=>");
            let body = if self.sees("{") {
                self.primary()
            } else {
                self.expr()
            };
            self.takes(",");
            arms.push(Arm {
                pattern,
                guard,
                body,
            });
        }
        Node::Match(Box::new(thing), arms)
    }

    /// `start` is where the label or `for` stands.
    fn rest_of_for(&mut self, start: usize) -> Node {
        self.raw_until(&["in"]);
        self.expect("in");
        let head = self.span_from(start);
        let through = self.before_body(|parser| parser.expr());
        let body = self.block();
        Node::For(head, Box::new(through), body)
    }
}
