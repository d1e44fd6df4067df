//! The lines of a document: which stand in a block of code, which are too long, and which files are linked.

/// The most characters of a line.
pub const LONGEST: usize = 120;

/// A line, by its number from 1 on.
pub struct Line<'a> {
    pub number: usize,
    pub text: &'a str,
    /// It stands in a block of code, which is fenced, or set in by four blanks after a blank line.
    pub is_code: bool,
}

fn begins_item(line: &str) -> bool {
    let numbered = line.trim_start_matches(|c: char| c.is_ascii_digit());
    let is_number = numbered.len() < line.len() && numbered.starts_with(". ");
    line.starts_with("- ") || line.starts_with("* ") || is_number
}

pub fn lines(text: &str) -> Vec<Line<'_>> {
    let (mut fenced, mut set_in, mut in_list, mut blank_before) = (false, false, false, true);
    let mut lines = Vec::new();
    for (number, text) in (1..).zip(text.lines()) {
        let is_blank = text.trim().is_empty();
        let is_fence = text.trim_start().starts_with("```");
        if !is_blank && !fenced {
            set_in = text.starts_with("    ") && !in_list && (set_in || blank_before);
            if !text.starts_with(' ') {
                in_list = begins_item(text);
            }
        }
        lines.push(Line {
            number,
            text,
            is_code: fenced || is_fence || set_in && !is_blank,
        });
        fenced ^= is_fence;
        blank_before = is_blank;
    }
    lines
}

/// The lines that are too long. A row of a table may be, and so may a line of code that quotes the tree.
pub fn long<'a>(text: &'a str, quotes: impl Fn(&str) -> bool) -> Vec<Line<'a>> {
    let mut lines = lines(text);
    lines.retain(|line| {
        let may_be = line.text.starts_with('|') || line.is_code && quotes(line.text.trim());
        line.text.chars().count() > LONGEST && !may_be
    });
    lines
}

/// A file that a document quotes whole: its link ends a line with a colon, and after a blank line comes the quote.
pub struct Quote<'a> {
    pub number: usize,
    pub file: &'a str,
    /// What is quoted, without the four blanks ahead of each line.
    pub text: String,
}

pub fn quotes(text: &str) -> Vec<Quote<'_>> {
    let lines = lines(text);
    let mut quotes = Vec::new();
    for (at, line) in lines.iter().enumerate() {
        let file = match line
            .text
            .strip_suffix("):")
            .and_then(|line| line.rsplit_once("]("))
        {
            Some((_, file)) if !line.is_code && !file.contains(')') => file,
            _ => continue,
        };
        let is_quoted = |line: &&Line| line.is_code || line.text.trim().is_empty();
        let quoted = lines[at + 1..].iter().take_while(is_quoted);
        let quoted = quoted.map(|line| line.text.strip_prefix("    ").unwrap_or(line.text));
        let text = quoted.collect::<Vec<_>>().join("\n");
        quotes.push(Quote {
            number: line.number,
            file,
            text: format!("{}\n", text.trim_matches('\n')),
        });
    }
    quotes
}

/// The files that a document links, without the places in them.
pub fn links(text: &str) -> Vec<&str> {
    let ends = |rest: &str| rest.find([')', '#']).unwrap_or(0);
    let targets = text.split("](").skip(1).map(|rest| &rest[..ends(rest)]);
    targets
        .filter(|file| !file.is_empty() && !file.contains("://"))
        .collect()
}

#[cfg(test)]
mod tests {
    use super::*;

    fn numbers(lines: &[Line]) -> Vec<usize> {
        lines.iter().map(|line| line.number).collect()
    }

    #[test]
    fn blocks_of_code() {
        let text = "text\n    on\n\n    code\n\n    code\ntext\n```\ncode\n```\n- item\n\n    on\n\ntext\n\n    code\n";
        let mut code = lines(text);
        code.retain(|line| line.is_code);
        assert_eq!(numbers(&code), [4, 6, 8, 9, 10, 17]);
    }

    #[test]
    fn lines_over_120_characters() {
        let (fits, over) = ("é".repeat(120), "é".repeat(121));
        let text = format!(
            "{fits}\n{over}\n\n| {over} |\n\n    {over}\n\n    {over}x\n\n1. item\n    {over}\n"
        );
        assert_eq!(numbers(&long(&text, |line| line == over)), [2, 8, 11]);
    }

    #[test]
    fn quoted_files() {
        let text = "This is\n[a](a.c):\n\n    int a;\n\n        b\n\ntext, as [d](d.c).\n";
        let quotes = quotes(text);
        assert_eq!(quotes.len(), 1);
        assert_eq!((quotes[0].number, quotes[0].file), (2, "a.c"));
        assert_eq!(quotes[0].text, "int a;\n\n    b\n");
    }

    #[test]
    fn linked_files() {
        let text = "[a](docs/A.md), ![b](b.png) [c](https://c) [d](D.md#place) [e](#place) (f)";
        assert_eq!(links(text), ["docs/A.md", "b.png", "D.md"]);
    }
}
