//! The counts of docs/PROMISES.md: a table with a row for each crate, and a sentence with the sums. A row is found by
//! the name of its crate and the column by its heading, so the table may be edited.
use crate::rattle::code;
use std::ops::Range;

const COLUMN: &str = "Functions proved";

/// How many functions a file of Rattle has.
pub fn functions(text: &str) -> usize {
    let tokens = code::tokens(text);
    let is_fn = |token: &&code::Token| &text[token.span.clone()] == "fn";
    tokens.iter().filter(is_fn).count()
}

/// A number that the document gives, and the right one.
struct Number {
    of: String,
    given: usize,
    right: usize,
    span: Range<usize>,
}

/// The numbers of the document, and what is missing in it.
#[derive(Default)]
struct Found {
    numbers: Vec<Number>,
    problems: Vec<String>,
}

/// The number that a text begins with, after blanks, and its place in it.
fn leading(text: &str) -> Option<(usize, Range<usize>)> {
    let from = text.len() - text.trim_start().len();
    let digits = text[from..]
        .chars()
        .take_while(char::is_ascii_digit)
        .count();
    let span = from..from + digits;
    Some((text[span.clone()].parse().ok()?, span))
}

/// The cells of a row of a table, each with its place in the line.
fn cells(line: &str) -> Vec<(usize, &str)> {
    let mut at = 0;
    let mut cells = Vec::new();
    for cell in line.split('|') {
        cells.push((at, cell));
        at += cell.len() + 1;
    }
    cells
}

/// The crate that a row is of: its first word.
fn name(cell: &str) -> &str {
    let name = cell.trim().trim_matches('`');
    name.split(|c: char| c != '_' && !c.is_ascii_alphanumeric())
        .next()
        .unwrap_or_default()
}

impl Found {
    fn in_document(text: &str, crates: &[(String, usize)]) -> Found {
        let mut found = Found::default();
        found.table(text, crates);
        found.sentence(text, crates);
        found
    }

    fn problem(&mut self, what: String) {
        self.problems.push(format!("docs/PROMISES.md {what}"));
    }

    fn table(&mut self, text: &str, crates: &[(String, usize)]) {
        let mut column = None;
        let mut listed: Vec<&str> = Vec::new();
        let mut at = 0;
        for line in text.split_inclusive('\n') {
            let start = at;
            at += line.len();
            let cells = cells(line);
            column = match column {
                _ if !line.starts_with('|') => None,
                None => cells.iter().position(|cell| cell.1.trim() == COLUMN),
                column => column,
            };
            let (first, cell) = match column.and_then(|column| cells.get(column)) {
                Some(cell) if !line.starts_with("|-") => (name(cells[1].1), cell),
                _ => continue,
            };
            if cell.1.trim() == COLUMN {
                continue;
            }
            let right = crates.iter().find(|one| one.0 == first);
            match (right, leading(cell.1)) {
                (None, _) => self.problem(format!("counts {first}, which is no crate")),
                _ if listed.contains(&first) => self.problem(format!("counts {first} twice")),
                (Some(_), None) => self.problem(format!("has no number of functions of {first}")),
                (Some((_, right)), Some((given, span))) => self.numbers.push(Number {
                    of: format!("the functions of {first}"),
                    given,
                    right: *right,
                    span: start + cell.0 + span.start..start + cell.0 + span.end,
                }),
            }
            listed.push(first);
        }
        for (name, functions) in crates {
            if !listed.contains(&name.as_str()) {
                self.problem(format!("does not count {name}, of {functions} functions"));
            }
        }
    }

    /// "N functions in M crates", on one line or over two.
    fn sentence(&mut self, text: &str, crates: &[(String, usize)]) {
        let words: Vec<&str> = text.split_whitespace().collect();
        let place = |word: &str| word.as_ptr() as usize - text.as_ptr() as usize;
        let sum = crates.iter().map(|one| one.1).sum();
        let mut said = false;
        for five in words.windows(5) {
            let numbers = (leading(five[0]), leading(five[3]));
            let words = five[1] == "functions" && five[2] == "in" && five[4].starts_with("crates");
            let ((functions, first), (listed, second)) = match numbers {
                (Some(functions), Some(listed)) if words => (functions, listed),
                _ => continue,
            };
            said = true;
            for (of, given, right, word, span) in [
                ("all functions", functions, sum, five[0], first),
                ("the crates", listed, crates.len(), five[3], second),
            ] {
                self.numbers.push(Number {
                    of: of.to_string(),
                    given,
                    right,
                    span: place(word) + span.start..place(word) + span.end,
                });
            }
        }
        if !said {
            self.problem("does not say \"N functions in M crates\"".to_string());
        }
    }
}

/// What is not right in the counts. `crates` has the functions of each crate.
pub fn problems(text: &str, crates: &[(String, usize)]) -> Vec<String> {
    let mut found = Found::in_document(text, crates);
    for number in std::mem::take(&mut found.numbers) {
        let Number {
            of,
            given,
            right,
            span,
        } = number;
        if given != right {
            let line = 1 + text[..span.start].matches('\n').count();
            found.problem(format!("line {line}: {of} are {right}, not {given}"));
        }
    }
    found.problems
}

/// The document with the right counts.
pub fn corrected(text: &str, crates: &[(String, usize)]) -> String {
    let mut numbers = Found::in_document(text, crates).numbers;
    numbers.sort_by_key(|number| number.span.start);
    let mut corrected = text.to_string();
    for number in numbers.into_iter().rev() {
        corrected.replace_range(number.span, &number.right.to_string());
    }
    corrected
}

#[cfg(test)]
mod tests {
    use super::*;

    const TEXT: &str = "\
A table that is not meant.

| Crate | Lines |
|---|---|
| lent | 9 |

| Crate | Functions proved | Axioms |
|---|---|---|
| lent | 4 | none |
| runs | 0: statements only | none |
| rows, a program | 1 | `axioms=2` |

In all 5 functions in
3 crates. The rest of it.
";

    fn crates(counts: [(&str, usize); 3]) -> Vec<(String, usize)> {
        let named = |(name, count): (&str, usize)| (name.to_string(), count);
        counts.map(named).to_vec()
    }

    #[test]
    fn functions_are_those_of_the_code() {
        let text = "// fn no()\npub fn a() -> u8\n    ensures { λ r. ⌜ fn ⌝ }\n{\n    1\n}\n\n\
                    impl S {\n    pub extern \"C\" fn b() {}\n}\nfn c() { io::write(b\"fn d\"); }\n";
        assert_eq!(functions(text), 3);
    }

    #[test]
    fn right_counts_are_no_problem() {
        let right = crates([("lent", 4), ("runs", 0), ("rows", 1)]);
        assert_eq!(problems(TEXT, &right), Vec::<String>::new());
        assert_eq!(corrected(TEXT, &right), TEXT);
    }

    #[test]
    fn other_counts_are_told_and_written() {
        let right = crates([("lent", 5), ("runs", 0), ("rows", 12)]);
        let told = [
            "docs/PROMISES.md line 9: the functions of lent are 5, not 4",
            "docs/PROMISES.md line 11: the functions of rows are 12, not 1",
            "docs/PROMISES.md line 13: all functions are 17, not 5",
        ];
        assert_eq!(problems(TEXT, &right), told);
        let written = corrected(TEXT, &right);
        assert_eq!(problems(&written, &right), Vec::<String>::new());
        assert!(written.contains(
            "| rows, a program | 12 | `axioms=2` |\n\nIn all 17 functions in\n3 crates."
        ));
        assert!(written.contains("| lent | 9 |\n"));
    }

    #[test]
    fn rows_are_found_by_name() {
        let right = crates([("lent", 4), ("runs", 1), ("tube", 0)]);
        let told = problems(TEXT, &right);
        assert_eq!(told.len(), 3);
        assert!(told[0].ends_with("counts rows, which is no crate"));
        assert!(told[1].ends_with("does not count tube, of 0 functions"));
        assert!(told[2].ends_with("the functions of runs are 1, not 0"));
        let twice = TEXT.replace("| runs |", "| lent |");
        let told = problems(&twice, &crates([("lent", 4), ("runs", 0), ("rows", 1)]));
        assert!(told[0].ends_with("counts lent twice"));
        assert!(told[1].ends_with("does not count runs, of 0 functions"));
    }

    #[test]
    fn a_sentence_and_numbers_there_must_be() {
        let right = crates([("lent", 4), ("runs", 0), ("rows", 1)]);
        let told = problems(&TEXT.replace("In all 5", "In all five"), &right);
        assert!(told[0].ends_with("does not say \"N functions in M crates\""));
        let told = problems(&TEXT.replace("| 4 |", "| four |"), &right);
        assert!(told[0].ends_with("has no number of functions of lent"));
    }
}
