//! The tokens of Rust text, as far as the mutated functions need them. Comments are passed over.

#[derive(Clone, Copy, Debug, PartialEq)]
pub enum Kind {
    Name,
    Number,
    /// A label, a lifetime or a string: never looked into.
    Other,
    Mark,
    End,
}

#[derive(Clone, Copy, Debug, PartialEq)]
pub struct Token<'a> {
    pub kind: Kind,
    pub text: &'a str,
    pub start: usize,
}

impl Token<'_> {
    pub fn end(&self) -> usize {
        self.start + self.text.len()
    }
}

/// Marks of more than one character, the longer ones first.
const MARKS: [&str; 17] = [
    "..=", "&&", "||", "==", "!=", "<=", ">=", "+=", "-=", "*=", "/=", "->", "=>", "::", "..",
    "<<", ">>",
];

/// All tokens, with an end token behind them.
pub fn tokens(text: &str) -> Vec<Token<'_>> {
    let mut found = Vec::new();
    let mut start = 0;
    while start < text.len() {
        let rest = &text[start..];
        let (kind, length) = next(rest);
        if let Some(kind) = kind {
            let text = &rest[..length];
            found.push(Token { kind, text, start });
        }
        start += length;
    }
    found.push(Token {
        kind: Kind::End,
        text: "",
        start: text.len(),
    });
    found
}

/// What the text begins with, nothing for blanks and comments; and its length.
fn next(text: &str) -> (Option<Kind>, usize) {
    let first = text.chars().next().expect("the text isn't empty");
    if first.is_whitespace() {
        (None, first.len_utf8())
    } else if text.starts_with("//") {
        (None, text.find('\n').unwrap_or(text.len()))
    } else if first.is_ascii_digit() {
        (Some(Kind::Number), number_length(text.as_bytes()))
    } else if is_of_name(first) {
        (Some(Kind::Name), while_in(text, is_of_name))
    } else if first == '\'' {
        (Some(Kind::Other), 1 + while_in(&text[1..], is_of_name))
    } else if first == '"' {
        let length = text[1..].find('"').expect("a string ends") + 2;
        (Some(Kind::Other), length)
    } else {
        let mark = MARKS.into_iter().find(|mark| text.starts_with(mark));
        (Some(Kind::Mark), mark.map_or(first.len_utf8(), str::len))
    }
}

fn is_of_name(letter: char) -> bool {
    letter.is_ascii_alphanumeric() || letter == '_'
}

fn while_in(text: &str, wanted: fn(char) -> bool) -> usize {
    text.find(|letter| !wanted(letter)).unwrap_or(text.len())
}

/// Digits, a point that no range or name follows, more digits, an exponent, a type.
fn number_length(text: &[u8]) -> usize {
    let at = |place: usize| text.get(place).copied().unwrap_or(b' ');
    let digits = |mut place: usize| {
        while at(place).is_ascii_digit() || at(place) == b'_' {
            place += 1;
        }
        place
    };
    let mut place = digits(0);
    let after = at(place + 1);
    if at(place) == b'.' && after != b'.' && !after.is_ascii_alphabetic() && after != b'_' {
        place = digits(place + 1);
    }
    if at(place) == b'e' {
        place = digits(place + 1 + usize::from(at(place + 1) == b'-'));
    }
    if text[place..].starts_with(b"f64") {
        place += 3;
    }
    place
}

#[cfg(test)]
mod tests {
    use super::tokens;

    fn texts(text: &str) -> Vec<&str> {
        tokens(text).into_iter().map(|token| token.text).collect()
    }

    #[test]
    fn numbers_end_where_ranges_and_methods_begin() {
        assert_eq!(texts("0..6"), ["0", "..", "6", ""]);
        assert_eq!(texts("self.0.data"), ["self", ".", "0", ".", "data", ""]);
        assert_eq!(texts("3. * 1e-12"), ["3.", "*", "1e-12", ""]);
        assert_eq!(
            texts("3.0_f64.sqrt()"),
            ["3.0_f64", ".", "sqrt", "(", ")", ""]
        );
    }

    #[test]
    fn comments_are_no_tokens() {
        assert_eq!(texts("a // b\n<= c"), ["a", "<=", "c", ""]);
    }
}
