//! Writes a function's body with its mutants: every place that can be otherwise asks the switch.

use crate::tree::{Block, Condition, Expr, Node, Span, Statement};

/// One thing changed.
#[derive(Clone, Debug, PartialEq)]
pub struct Mutant {
    pub file: String,
    pub function: String,
    pub line: usize,
    /// `operator`, `comparison`, `constant`, ...
    pub kind: &'static str,
    /// What it was and what it becomes.
    pub change: String,
}

pub struct Renderer<'a> {
    pub text: &'a str,
    pub file: &'a str,
    pub function: String,
    /// Every mutant so far; its place is its number.
    pub mutants: &'a mut Vec<Mutant>,
    /// Variables that get their only value after their declaration.
    declared_only: Vec<String>,
}

const SWITCH: &str = "::mutant_switch::";
const LIMITS: [&str; 8] = [
    "Acc0Acc1Vel",
    "Vel",
    "Acc0",
    "Acc1",
    "Acc0Acc1",
    "Acc0Vel",
    "Acc1Vel",
    "None",
];

impl<'a> Renderer<'a> {
    pub fn new(text: &'a str, file: &'a str, function: &str, mutants: &'a mut Vec<Mutant>) -> Self {
        Renderer {
            text,
            file,
            function: function.to_string(),
            mutants,
            declared_only: Vec::new(),
        }
    }

    fn source(&self, span: Span) -> &'a str {
        &self.text[span.start..span.end]
    }

    fn short(&self, span: Span) -> String {
        let words: Vec<&str> = self.source(span).split_whitespace().collect();
        let mut short = words.join(" ");
        if short.chars().count() > 60 {
            short = short.chars().take(57).collect::<String>() + "...";
        }
        short
    }

    /// Numbers for the mutants of one place: the first of them.
    fn place(&mut self, span: Span, kind: &'static str, changes: &[String]) -> usize {
        let first = self.mutants.len();
        let line = self.text[..span.start].matches('\n').count() + 1;
        for change in changes {
            self.mutants.push(Mutant {
                file: self.file.to_string(),
                function: self.function.clone(),
                line,
                kind,
                change: change.clone(),
            });
        }
        first
    }

    /// A place whose thing, shown shortly, becomes others.
    fn place_of(&mut self, expr: &Expr, kind: &'static str, becomes: &[&str]) -> usize {
        let was = self.short(expr.span);
        let changes: Vec<String> = becomes
            .iter()
            .map(|other| format!("`{was}`: {other}"))
            .collect();
        self.place(expr.span, kind, &changes)
    }

    pub fn block(&mut self, block: &Block) -> String {
        let mut lines = Vec::new();
        let calls = exchanged_calls(block);
        for (number, statement) in block.statements.iter().enumerate() {
            let mut line = self.statement(statement);
            for &(one, two) in calls
                .iter()
                .filter(|(one, two)| *one == number || *two == number)
            {
                let other = &block.statements[if one == number { two } else { one }];
                let mutant = if one == number {
                    self.exchange(statement, other)
                } else {
                    self.exchange_before(statement)
                };
                line = format!(
                    "if {SWITCH}is_on({mutant}) {{ {} }} else {{ {line} }}",
                    self.plain(other)
                );
            }
            lines.push(line);
        }
        format!("{{\n{}\n}}", lines.join("\n"))
    }

    /// A new mutant that exchanges two calls.
    fn exchange(&mut self, one: &Statement, two: &Statement) -> usize {
        let (Statement::Expr(first, _), Statement::Expr(second, _)) = (one, two) else {
            unreachable!("only calls are exchanged");
        };
        let change = format!(
            "`{}` and `{}` exchanged",
            self.short(first.span),
            self.short(second.span)
        );
        self.place(first.span, "order", &[change])
    }

    /// The number of the mutant that exchanges this call with the one before it.
    fn exchange_before(&self, statement: &Statement) -> usize {
        let Statement::Expr(expr, _) = statement else {
            unreachable!("only calls are exchanged");
        };
        let ending = format!(" and `{}` exchanged", self.short(expr.span));
        let found = self
            .mutants
            .iter()
            .rposition(|mutant| mutant.kind == "order" && mutant.change.ends_with(&ending));
        found.expect("the exchange was numbered at the call before")
    }

    fn plain(&self, statement: &Statement) -> String {
        match statement {
            Statement::Let(pattern, Some(first)) => format!(
                "let {} = {};",
                self.source(*pattern),
                self.source(first.span)
            ),
            Statement::Let(pattern, None) => format!("let {};", self.source(*pattern)),
            Statement::Expr(expr, _) => format!("{};", self.source(expr.span)),
        }
    }

    fn statement(&mut self, statement: &Statement) -> String {
        match statement {
            Statement::Let(pattern, None) => {
                let name = self.source(*pattern).split(':').next().unwrap_or("").trim();
                self.declared_only.push(name.to_string());
                self.plain(statement)
            }
            Statement::Let(pattern, Some(first)) => {
                format!("let {} = {};", self.source(*pattern), self.expr(first))
            }
            Statement::Expr(expr, ended) => self.expression_statement(expr, *ended),
        }
    }

    fn expression_statement(&mut self, expr: &Expr, ended: bool) -> String {
        match &expr.node {
            Node::Assign(operator, place, value) => self.assignment(expr, operator, place, value),
            Node::Return(_) | Node::Leave => {
                let body = self.expr(expr);
                let mutant = self.place_of(expr, "early end", &["left out"]);
                format!("if !{SWITCH}is_on({mutant}) {{ {body}; }}")
            }
            Node::Method(..) | Node::Call(..) if ended => {
                let body = self.expr(expr);
                let mutant = self.place_of(expr, "statement", &["left out"]);
                format!("if !{SWITCH}is_on({mutant}) {{ {body}; }}")
            }
            _ => self.expr(expr) + if ended { ";" } else { "" },
        }
    }

    fn assignment(&mut self, expr: &Expr, operator: &str, place: &Expr, value: &Expr) -> String {
        let new = self.expr(value);
        let to = self.expr(place);
        if operator == "="
            && self
                .declared_only
                .iter()
                .any(|name| name == self.source(place.span))
        {
            return format!("{to} = {new};");
        }
        let new = match operator {
            "=" => new,
            _ => self.arithmetic(expr, &operator[..1], &to, &new),
        };
        let mutant = self.place_of(expr, "statement", &["left out"]);
        if self.source(value.span).starts_with("Some(") || self.source(value.span) == "None" {
            return format!(
                "{{ let new_ = {new}; if !{SWITCH}is_on({mutant}) {{ {to} = new_; }} }}"
            );
        }
        format!("{{ let new_ = {new}; {SWITCH}assign({mutant}, &mut {to}, new_); }}")
    }

    fn arithmetic(&mut self, expr: &Expr, operator: &str, a: &str, b: &str) -> String {
        let (name, becomes): (&str, &[&str]) = match operator {
            "+" => ("add", &["+ as -", "+ as *"]),
            "-" => ("sub", &["- as +", "- the other way round"]),
            "*" => ("mul", &["* as /", "* as +"]),
            "/" => ("div", &["/ as *", "/ as -"]),
            _ => unreachable!("`{operator}` is no arithmetic"),
        };
        let first = self.place_of(expr, "operator", becomes);
        format!("{SWITCH}{name}({first}, {a}, {b})")
    }

    fn binary(&mut self, expr: &Expr, operator: &str, left: &Expr, right: &Expr) -> String {
        let (a, b) = (self.expr(left), self.operand(operator, right));
        let (name, kind, becomes): (&str, &'static str, &[&str]) = match operator {
            "+" | "-" | "*" | "/" => return self.arithmetic(expr, operator, &a, &b),
            "%" => return format!("({a} % {b})"),
            "<" => ("lt", "comparison", &["< as <=", "< as >", "< as not >="]),
            "<=" => ("le", "comparison", &["<= as <", "<= as >=", "<= as not >"]),
            ">" => ("gt", "comparison", &["> as >=", "> as <", "> as not <="]),
            ">=" => ("ge", "comparison", &[">= as >", ">= as <=", ">= as not <"]),
            "==" => ("eq", "comparison", &["== as !="]),
            "!=" => ("ne", "comparison", &["!= as =="]),
            "&&" => (
                "and",
                "connective",
                &["&& as ||", "only the left", "only the right"],
            ),
            _ => (
                "or",
                "connective",
                &["|| as &&", "only the left", "only the right"],
            ),
        };
        // Whole numbers are never NaN.
        let is_whole = |side: &Expr| {
            matches!(side.node, Node::Number) && number(self.source(side.span)).is_none()
        };
        let is_whole =
            is_whole(right) || ["MOST_PROFILES", "MOST_AXES"].contains(&self.source(right.span));
        let becomes = if becomes.len() == 3 && kind == "comparison" && is_whole {
            &becomes[..2]
        } else {
            becomes
        };
        let name = if becomes.len() == 2 {
            format!("{name}_whole")
        } else {
            name.to_string()
        };
        let first = self.place_of(expr, kind, becomes);
        if operator == "&&" && self.source(right.span).contains("check_with_timing") {
            return format!("{SWITCH}and_then({first}, {a}, || {b})");
        }
        format!("{SWITCH}{name}({first}, {a}, {b})")
    }

    /// The right side of an operator: a zero that something is compared with has no sign.
    fn operand(&mut self, operator: &str, right: &Expr) -> String {
        if matches!(operator, "<" | "<=" | ">" | ">=" | "==")
            && number(self.source(right.span)) == Some(0.0)
        {
            return self.constant(
                right,
                &["1.0".into(), "f64::EPSILON".into(), "-f64::EPSILON".into()],
            );
        }
        // Of a threshold the factor is changed already.
        if operator == "*" && self.source(right.span) == "f64::EPSILON" {
            return self.source(right.span).to_string();
        }
        self.expr(right)
    }

    fn constant(&mut self, expr: &Expr, others: &[String]) -> String {
        let was = self.source(expr.span);
        let becomes: Vec<&str> = others.iter().map(String::as_str).collect();
        let first = self.place_of(expr, "constant", &becomes);
        format!("{SWITCH}choose({first}, {was}, [{}])", others.join(", "))
    }

    fn list(&mut self, exprs: &[Expr]) -> String {
        let all: Vec<String> = exprs.iter().map(|expr| self.expr(expr)).collect();
        all.join(", ")
    }

    fn expr(&mut self, expr: &Expr) -> String {
        match &expr.node {
            Node::Raw => self.source(expr.span).to_string(),
            Node::Number => self.constant(expr, &other_numbers(self.source(expr.span))),
            Node::Path => self.path(expr),
            Node::Field(of, name) => format!("{}.{name}", self.expr(of)),
            Node::Index(of, index) => self.index(expr, of, index),
            Node::Call(callee, arguments) => self.call(expr, callee, arguments),
            Node::Method(of, name, arguments) => self.method(expr, of, name, arguments),
            Node::Unary("-", operand) => {
                let operand = self.expr(operand);
                let first = self.place_of(expr, "operator", &["minus left out"]);
                format!("{SWITCH}neg({first}, {operand})")
            }
            Node::Unary("!", operand) => {
                let operand = self.expr(operand);
                let first = self.place_of(expr, "operator", &["not left out"]);
                format!("{SWITCH}not({first}, {operand})")
            }
            Node::Unary(operator, operand) => format!("{operator}{}", self.expr(operand)),
            Node::Binary(operator, left, right) => self.binary(expr, operator, left, right),
            Node::Range(left, operator, right) => {
                let mut end = |side: &Option<Box<Expr>>| {
                    side.as_ref().map_or(String::new(), |side| self.expr(side))
                };
                format!("{}{operator}{}", end(left), end(right))
            }
            Node::Assign(operator, place, value) => self.assignment(expr, operator, place, value),
            Node::If(condition, then, otherwise) => {
                self.choice(condition, then, otherwise.as_deref())
            }
            Node::Match(thing, arms) => {
                let thing = self.expr(thing);
                let mut lines = Vec::new();
                for arm in arms {
                    let guard = arm
                        .guard
                        .as_ref()
                        .map(|guard| format!(" if {}", self.expr(guard)));
                    let body = self.expr(&arm.body);
                    lines.push(format!(
                        "{}{} => {body},",
                        self.source(arm.pattern),
                        guard.unwrap_or_default()
                    ));
                }
                format!("match {thing} {{\n{}\n}}", lines.join("\n"))
            }
            Node::Block(block) => self.block(block),
            Node::For(head, through, body) => {
                format!(
                    "{} {} {}",
                    self.source(*head),
                    self.expr(through),
                    self.block(body)
                )
            }
            Node::Return(Some(value)) => format!("return {}", self.expr(value)),
            Node::Return(None) | Node::Leave => self.source(expr.span).to_string(),
            Node::Array(all) => format!("[{}]", self.list(all)),
            Node::Tuple(all) => format!("({})", self.list(all)),
            Node::Paren(inner) => format!("({})", self.expr(inner)),
            Node::Closure(parameters, body) => {
                format!("{} {}", self.source(*parameters), self.expr(body))
            }
            Node::Matches(thing, names) => self.matches(expr, thing, names),
            Node::Try(inner) => format!("{}?", self.expr(inner)),
        }
    }

    fn path(&mut self, expr: &Expr) -> String {
        let was = self.source(expr.span);
        let last = was.rsplit("::").next().unwrap_or(was);
        let (kind, others): (&'static str, Vec<String>) = match was {
            "true" => ("flag", vec!["false".into()]),
            "false" => ("flag", vec!["true".into()]),
            "f64::INFINITY" => ("constant", vec!["f64::MAX".into()]),
            "Ordering::Equal" => (
                "constant",
                vec!["Ordering::Less".into(), "Ordering::Greater".into()],
            ),
            _ if was.starts_with("ReachedLimits::") => {
                let place = LIMITS
                    .into_iter()
                    .position(|name| name == last)
                    .expect("a name of limits");
                let others = [place + 1, place + 4]
                    .map(|other| format!("ReachedLimits::{}", LIMITS[other % 8]));
                ("name", others.to_vec())
            }
            "ControlSigns::UDDU" => ("name", vec!["ControlSigns::UDUD".into()]),
            "Direction::UP" => ("name", vec!["Direction::DOWN".into()]),
            "Direction::DOWN" => ("name", vec!["Direction::UP".into()]),
            "RECORD_LENGTH" => (
                "constant",
                vec!["RECORD_LENGTH + 1".into(), "RECORD_LENGTH - 1".into()],
            ),
            "MOVE_VERSION" => (
                "constant",
                vec!["MOVE_VERSION + 1".into(), "MOVE_VERSION - 1".into()],
            ),
            "MOST_PROFILES" | "MOST_AXES" => {
                ("constant", vec![format!("{was} + 1"), format!("{was} - 1")])
            }
            _ if last.len() > 2
                && last
                    .chars()
                    .all(|c| c.is_ascii_uppercase() || c.is_ascii_digit() || c == '_') =>
            {
                (
                    "constant",
                    vec![format!("2.0 * {was}"), format!("{was} / 2.0"), "0.0".into()],
                )
            }
            _ => return was.to_string(),
        };
        let becomes: Vec<&str> = others.iter().map(String::as_str).collect();
        let first = self.place_of(expr, kind, &becomes);
        format!("{SWITCH}choose({first}, {was}, [{}])", others.join(", "))
    }

    /// An index is changed as a whole; a range in its place isn't.
    fn index(&mut self, expr: &Expr, of: &Expr, index: &Expr) -> String {
        let of = self.expr(of);
        if matches!(index.node, Node::Range(..)) {
            return format!("{of}[{}]", self.source(index.span));
        }
        let first = self.place_of(expr, "index", &["one more", "one less"]);
        format!("{of}[{SWITCH}index({first}, {})]", self.source(index.span))
    }

    fn call(&mut self, expr: &Expr, callee: &Expr, arguments: &[Expr]) -> String {
        match (self.source(callee.span), arguments) {
            ("f64::min", [a, b]) => self.least_or_greatest(expr, "min", a, b),
            ("f64::abs" | "f64::sqrt", [operand]) => {
                let method = self
                    .source(callee.span)
                    .trim_start_matches("f64::")
                    .to_string();
                self.of_one(expr, &method, operand)
            }
            _ => format!(
                "{}({})",
                self.source(callee.span),
                self.arguments(expr, arguments)
            ),
        }
    }

    fn method(&mut self, expr: &Expr, of: &Expr, name: &str, arguments: &[Expr]) -> String {
        match (name, arguments) {
            ("min" | "max", [other]) => self.least_or_greatest(expr, name, of, other),
            ("abs" | "sqrt" | "cbrt", []) => self.of_one(expr, name, of),
            _ => format!(
                "{}.{name}({})",
                self.expr(of),
                self.arguments(expr, arguments)
            ),
        }
    }

    fn least_or_greatest(&mut self, expr: &Expr, name: &str, a: &Expr, b: &Expr) -> String {
        let (a, b) = (self.expr(a), self.expr(b));
        let other = if name == "min" { "max" } else { "min" };
        let first = self.place_of(
            expr,
            "function",
            &[other, "only the first", "only the second"],
        );
        format!("{SWITCH}{name}({first}, {a}, {b})")
    }

    /// A function of one double, or the double itself.
    fn of_one(&mut self, expr: &Expr, name: &str, operand: &Expr) -> String {
        let operand = match (name, &without_paren(operand).node) {
            ("abs", Node::Binary(operator, left, right)) if operator == "-" => {
                self.distance(operand, left, right)
            }
            _ => self.expr(operand),
        };
        let left_out = format!("{name} left out");
        let first = self.place_of(expr, "function", &[&left_out]);
        format!("{{ let x_: f64 = {operand}; {SWITCH}choose({first}, x_.{name}(), [x_]) }}")
    }

    /// A difference whose sign doesn't count.
    fn distance(&mut self, expr: &Expr, left: &Expr, right: &Expr) -> String {
        let (a, b) = (self.expr(left), self.expr(right));
        let first = self.place_of(expr, "operator", &["- as +"]);
        format!("{SWITCH}distance({first}, {a}, {b})")
    }

    /// Arguments, where upper and lower limits can change places and a jerk its sign.
    fn arguments(&mut self, call: &Expr, arguments: &[Expr]) -> String {
        let mut written: Vec<String> = arguments
            .iter()
            .map(|argument| self.expr(argument))
            .collect();
        let sources: Vec<&str> = arguments
            .iter()
            .map(|argument| self.source(argument.span))
            .collect();
        for (upper, lower) in [("v_max", "v_min"), ("a_max", "a_min")] {
            let place = |name: &str| sources.iter().position(|source| source.ends_with(name));
            if let (Some(one), Some(two)) = (place(upper), place(lower)) {
                let change = format!("`{}`: {upper} and {lower} exchanged", self.short(call.span));
                let mutant = self.place(arguments[one].span, "argument", &[change]);
                written[one] = format!(
                    "{SWITCH}choose({mutant}, {}, [{}])",
                    sources[one], sources[two]
                );
                written[two] = format!(
                    "{SWITCH}choose({mutant}, {}, [{}])",
                    sources[two], sources[one]
                );
            }
        }
        for (place, source) in sources.iter().enumerate() {
            if *source == "j_max" || *source == "self._j_max" {
                let change = format!("`{}`: j_max with a minus", self.short(call.span));
                let mutant = self.place(arguments[place].span, "argument", &[change]);
                written[place] = format!("{SWITCH}choose({mutant}, {source}, [-{source}])");
            }
        }
        written.join(", ")
    }

    fn choice(&mut self, condition: &Condition, then: &Block, otherwise: Option<&Expr>) -> String {
        let condition = match condition {
            Condition::Is(condition) => {
                let written = self.expr(condition);
                let first = self.place_of(condition, "condition", &["always", "never"]);
                format!("{SWITCH}forced({first}, {written})")
            }
            Condition::Let(pattern, thing) => {
                format!("{} {}", self.source(*pattern), self.expr(thing))
            }
        };
        let then = self.block(then);
        match otherwise {
            Some(otherwise) => format!("if {condition} {then} else {}", self.expr(otherwise)),
            None => format!("if {condition} {then}"),
        }
    }

    fn matches(&mut self, expr: &Expr, thing: &Expr, names: &[String]) -> String {
        let is_in = |place: usize| names.iter().any(|name| name == LIMITS[place]);
        let changes: Vec<String> = (0..8)
            .map(|place| {
                format!(
                    "set of names {} {}",
                    if is_in(place) { "without" } else { "with" },
                    LIMITS[place]
                )
            })
            .collect();
        let first = self.place(expr.span, "name", &changes);
        let set = (0..8)
            .filter(|&place| is_in(place))
            .fold(0, |set, place| set | 1 << place);
        format!(
            "{SWITCH}is_in({first}, {} as usize, {set})",
            self.source(thing.span)
        )
    }
}

/// The pairs of calls of families that follow each other in a block, perhaps with a question between them.
fn exchanged_calls(block: &Block) -> Vec<(usize, usize)> {
    let is_family = |statement: &Statement| matches!(statement, Statement::Expr(Expr { node: Node::Method(_, name, _), .. }, true) if name.starts_with("time_"));
    let calls: Vec<usize> = (0..block.statements.len())
        .filter(|&number| is_family(&block.statements[number]))
        .collect();
    calls.windows(2).map(|pair| (pair[0], pair[1])).collect()
}

fn without_paren(expr: &Expr) -> &Expr {
    match &expr.node {
        Node::Paren(inner) => without_paren(inner),
        _ => expr,
    }
}

fn number(text: &str) -> Option<f64> {
    text.trim_end_matches("_f64")
        .replace('_', "")
        .parse()
        .ok()
        .filter(|_| text.contains('.') || text.contains("e-"))
}

/// What a number becomes.
fn other_numbers(text: &str) -> Vec<String> {
    let Some(x) = number(text) else {
        let whole: u64 = text.parse().expect("a whole number");
        return if whole == 0 {
            vec!["1".into()]
        } else {
            vec![(whole + 1).to_string(), (whole - 1).to_string()]
        };
    };
    if x == 0.0 {
        return vec!["1.0".into(), "f64::EPSILON".into(), "-0.0".into()];
    }
    let candidates = if x < 0.1 {
        [2.0 * x, x / 2.0, 10.0 * x, x / 10.0, 0.0]
    } else {
        [2.0 * x, x / 2.0, x + 1.0, 0.0, x]
    };
    let mut others: Vec<String> = Vec::new();
    for other in candidates {
        let text = format!("{other:?}");
        if other != x && !others.contains(&text) {
            others.push(text);
        }
    }
    others
}
