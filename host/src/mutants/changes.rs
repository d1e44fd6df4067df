//! The small changes that are made to code: another sign, another number, a value turned round, two arguments
//! swapped, a statement left out.
use crate::rattle::code::{Kind, Token};
use std::ops::Range;

pub struct Change {
    pub span: Range<usize>,
    pub new: String,
    pub within: String,
}

/// Signs between two values, and what each is changed to.
const OTHERS: [(&str, &str); 18] = [
    ("<", "<="),
    ("<=", "<"),
    (">", ">="),
    (">=", ">"),
    ("==", "!="),
    ("!=", "=="),
    ("+", "-"),
    ("-", "+"),
    ("*", "+"),
    ("/", "*"),
    ("%", "/"),
    ("&&", "||"),
    ("||", "&&"),
    ("&", "|"),
    ("|", "&"),
    ("^", "|"),
    (">>", "<<"),
    ("..=", ".."),
];

struct Code<'a> {
    text: &'a str,
    tokens: &'a [Token],
}

impl<'a> Code<'a> {
    fn token(&self, at: usize) -> &'a str {
        self.tokens
            .get(at)
            .map_or("", |token| &self.text[token.span.clone()])
    }

    fn kind(&self, at: usize) -> Option<Kind> {
        self.tokens.get(at).map(|token| token.kind)
    }

    /// A value ends here, so that a sign after it stands between two.
    fn ends_value(&self, at: usize) -> bool {
        match self.kind(at) {
            Some(Kind::Word) => {
                !["return", "if", "in", "match", "else", "while"].contains(&self.token(at))
            }
            Some(Kind::Number) => true,
            _ => [")", "]"].contains(&self.token(at)),
        }
    }

    /// A loop's step. Without it the loop does not end, and no case has to show that.
    fn is_step(&self, at: usize) -> bool {
        self.token(at) == "+=" && self.token(at + 2) == ";" && {
            let step = self.token(at + 1);
            step.chars()
                .all(|c| c.is_ascii_digit() || c.is_ascii_uppercase() || c == '_')
        }
    }

    fn other_sign(&self, at: usize) -> Vec<String> {
        let sign = self.token(at);
        if sign == "!" {
            return vec![String::new()];
        }
        if sign == "+=" && !self.is_step(at) {
            return vec!["=".to_string()];
        }
        let others = OTHERS.iter().filter(|(old, _)| *old == sign);
        let between = at > 0 && self.ends_value(at - 1);
        others
            .filter(|_| between)
            .map(|(_, new)| new.to_string())
            .collect()
    }

    /// One more and one less. A step of a loop stays over 0.
    fn other_numbers(&self, at: usize) -> Vec<String> {
        let text = self.token(at);
        let hex = text.starts_with("0x");
        let digits = if hex { &text[2..] } else { text };
        let radix = if hex { 16 } else { 10 };
        let end = digits
            .find(|c: char| !c.is_digit(radix))
            .unwrap_or(digits.len());
        let (digits, suffix) = digits.split_at(end);
        let number = match u64::from_str_radix(digits, radix) {
            Ok(number) => number,
            Err(_) => return Vec::new(),
        };
        let least = u64::from(at > 0 && self.is_step(at - 1));
        let mut numbers = vec![number.wrapping_add(1)];
        numbers.extend(number.checked_sub(1).filter(|less| *less >= least));
        let shown = |n: u64| {
            if hex {
                format!("0x{n:X}{suffix}")
            } else {
                format!("{n}{suffix}")
            }
        };
        numbers.into_iter().map(shown).collect()
    }

    fn at_token(&self, at: usize) -> Vec<Change> {
        let new = match (self.kind(at), self.token(at)) {
            (Some(Kind::Number), _) => self.other_numbers(at),
            (Some(Kind::Sign), _) => self.other_sign(at),
            (_, "true") => vec!["false".to_string()],
            (_, "false") => vec!["true".to_string()],
            _ => Vec::new(),
        };
        let of = |new| self.change(at, self.tokens[at].span.clone(), new);
        new.into_iter().map(of).collect()
    }

    fn change(&self, at: usize, span: Range<usize>, new: String) -> Change {
        let within = self.tokens[at].within.clone();
        Change { span, new, within }
    }

    /// A token stands in the brackets of a call, and in no others inside of these.
    fn is_argument(&self, at: usize) -> bool {
        let mut open = 0;
        for before in (0..at).rev() {
            match self.token(before) {
                ")" | "]" | "}" => open += 1,
                "(" | "[" | "{" if open > 0 => open -= 1,
                sign @ ("(" | "[" | "{") => return sign == "(",
                _ => {}
            }
        }
        false
    }

    /// Two arguments side by side that are each a name.
    fn swapped(&self, at: usize) -> Option<Change> {
        let around = [self.token(at), self.token(at + 2), self.token(at + 4)];
        let names = self.kind(at + 1) == Some(Kind::Word) && self.kind(at + 3) == Some(Kind::Word);
        let ends = [",", ")"].contains(&around[2]);
        if !names || !["(", ","].contains(&around[0]) || around[1] != "," || !ends {
            return None;
        }
        if !self.is_argument(at + 1) {
            return None;
        }
        let span = self.tokens[at + 1].span.start..self.tokens[at + 3].span.end;
        let new = format!("{}, {}", self.token(at + 3), self.token(at + 1));
        Some(self.change(at + 1, span, new))
    }

    /// A statement on a line of its own that gives a value to something or calls a function.
    fn left_out(&self, at: usize) -> Option<Change> {
        let begins = at > 0 && ["{", "}", ";"].contains(&self.token(at - 1));
        let kept = [
            "let", "return", "use", "pub", "mod", "const", "fn", "while", "if", "match", "for",
        ];
        if !begins || self.kind(at) != Some(Kind::Word) || kept.contains(&self.token(at)) {
            return None;
        }
        let from = self.tokens[at].span.start;
        let end = from + self.text[from..].find('\n')?;
        let ends = self.tokens[at..]
            .iter()
            .position(|token| token.span.end >= end)?;
        let step = (at..at + ends).any(|sign| self.is_step(sign));
        if self.token(at + ends) != ";" || self.tokens[at + ends].span.end != end || step {
            return None;
        }
        Some(self.change(at, from..end, String::new()))
    }
}

pub fn changes(text: &str, tokens: &[Token]) -> Vec<Change> {
    let code = Code { text, tokens };
    (0..tokens.len())
        .flat_map(|at| {
            let mut changes = code.at_token(at);
            changes.extend(code.swapped(at));
            changes.extend(code.left_out(at));
            changes
        })
        .collect()
}

#[cfg(test)]
mod tests {
    use super::*;
    use crate::rattle::code;

    fn shown(text: &str) -> Vec<String> {
        changes(text, &code::tokens(text))
            .iter()
            .map(|change| format!("{} -> {}", &text[change.span.clone()], change.new))
            .collect()
    }

    #[test]
    fn signs_and_numbers() {
        assert_eq!(shown("a <= 0"), ["<= -> <", "0 -> 1"]);
        assert_eq!(shown("a + 0x0F"), ["+ -> -", "0x0F -> 0x10", "0x0F -> 0xE"]);
        assert_eq!(
            shown("f(&a, -1usize)"),
            ["1usize -> 2usize", "1usize -> 0usize"]
        );
        assert_eq!(shown("!a"), ["! -> "]);
    }

    #[test]
    fn a_step_goes_on() {
        assert_eq!(shown("at += 1;"), ["1 -> 2"]);
        assert_eq!(shown("at += MANY;"), Vec::<String>::new());
        assert_eq!(shown("sum += part.reads;"), ["+= -> ="]);
    }

    #[test]
    fn arguments_and_statements() {
        assert_eq!(
            shown("{\n    f(a, b);\n}"),
            ["f(a, b); -> ", "a, b -> b, a"]
        );
        assert_eq!(shown("{\n    m.x = y;\n}"), ["m.x = y; -> "]);
        assert_eq!(shown("fn f(a: u8, b: u8) {}"), Vec::<String>::new());
        assert_eq!(shown("enum E { A(u8), B, C, D }"), Vec::<String>::new());
    }
}
