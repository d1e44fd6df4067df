//! Whether the package has the text of crates/: every token of a file of Rattle, in the same order, but for what the
//! prover alone reads, and no other but for what Rust is told outside of the functions. The files are read again, by
//! code of its own, so that what made the package is not believed.

#[derive(Debug, PartialEq)]
struct Token<'a> {
    text: &'a str,
    line: usize,
}

fn is_word(character: char) -> bool {
    character.is_alphanumeric() || character == '_'
}

/// The bytes up to the end of a quoted text, at whose first quote the text begins.
fn quoted(text: &str) -> usize {
    let quote = text.chars().next();
    let mut escaped = false;
    for (at, character) in text.char_indices().skip(1) {
        if !escaped && Some(character) == quote {
            return at + 1;
        }
        escaped = character == '\\' && !escaped;
    }
    text.len()
}

/// The bytes of what a text begins with.
fn first(text: &str) -> usize {
    let character = text.chars().next().unwrap_or(' ');
    if text.starts_with("//") {
        return text.find('\n').unwrap_or(text.len());
    }
    if text.starts_with("b\"") || text.starts_with("b'") {
        return 1 + quoted(&text[1..]);
    }
    if character == '"' {
        return quoted(text);
    }
    if is_word(character) {
        return text.find(|c| !is_word(c)).unwrap_or(text.len());
    }
    character.len_utf8()
}

fn tokens(text: &str) -> Vec<Token<'_>> {
    let mut tokens = Vec::new();
    let (mut at, mut line) = (0, 1);
    while at < text.len() {
        let token = &text[at..at + first(&text[at..])];
        if !token.starts_with("//") && !token.trim().is_empty() {
            tokens.push(Token { text: token, line });
        }
        line += token.matches('\n').count();
        at += token.len();
    }
    tokens
}

fn starts(tokens: &[Token], with: &[&str]) -> bool {
    tokens.len() >= with.len()
        && tokens
            .iter()
            .zip(with)
            .all(|(token, text)| token.text == *text)
}

fn texts<'a>(tokens: &[Token<'a>]) -> Vec<&'a str> {
    tokens.iter().map(|token| token.text).collect()
}

/// The tokens up to and with the first of this text.
fn up_to(tokens: &[Token], end: &str) -> usize {
    let end = tokens.iter().position(|token| token.text == end);
    end.map_or(tokens.len(), |end| end + 1)
}

/// The tokens up to the end of the first block in these brackets.
fn block(tokens: &[Token], open: &str, close: &str) -> usize {
    let mut depth = 0;
    for (at, token) in tokens.iter().enumerate() {
        if token.text == open {
            depth += 1;
        } else if token.text == close {
            depth -= 1;
            if depth == 0 {
                return at + 1;
            }
        }
    }
    tokens.len()
}

/// Whether a clause of a contract begins here, with a name or without.
fn is_clause(tokens: &[Token]) -> bool {
    let name = match tokens.get(1) {
        Some(second) if second.text == "{" => 0,
        Some(second) if second.text.chars().all(is_word) => 1,
        _ => return false,
    };
    (starts(tokens, &["requires"]) || starts(tokens, &["ensures"]))
        && starts(&tokens[1 + name..], &["{"])
}

/// A ghost part of a type, a trait or an `impl`, with its sign, or the `impl` of a model: so many tokens.
fn ghost_item(source: &[Token]) -> usize {
    let of_model = starts(source, &["use"]) && source.len() > 2 && starts(&source[2..], &MODEL);
    if starts(source, &["ghost", "use"]) || of_model {
        return up_to(source, ";");
    }
    if starts(source, &["ghost"]) || starts(source, &["pub", "ghost"]) {
        let end = block(source, "{", "}");
        let sign = source.get(end).map(|token| token.text);
        return end + usize::from(sign == Some(",") || sign == Some(";"));
    }
    let head = up_to(source, "{");
    let is_model = source[..head]
        .windows(2)
        .any(|pair| starts(pair, &["Model", "for"]));
    match starts(source, &["impl"]) && is_model {
        true => block(source, "{", "}"),
        false => 0,
    }
}

const MODEL: [&str; 7] = [":", ":", "marker", ":", ":", "Model", ";"];

/// The head of the function by which a type is shown as text, by the kit's std, and by Rust's.
const SHOWN: [&str; 2] = [
    "fmt<W: fmt::Write>(&self, f: &mut fmt::Formatter<W>)",
    "fmt(&self, f: &mut fmt::Formatter<'_>)",
];

/// How many tokens of either say so at the beginning of both.
fn shown(source: &[Token], made: &[Token]) -> Option<(usize, usize)> {
    let [kit, rust] = SHOWN.map(|text| {
        tokens(text)
            .iter()
            .map(|token| token.text)
            .collect::<Vec<_>>()
    });
    (starts(source, &kit) && starts(made, &rust)).then_some((kit.len(), rust.len()))
}

/// What the prover alone reads, how C is told of a function, how a table is laid out, and which types are values that
/// are copied, which Rust is told by a derive of its own: so many tokens at the beginning may be left out.
fn left_out(source: &[Token]) -> usize {
    const ATTRIBUTES: [&[&str]; 5] = [
        &["#", "[", "unsafe", "(", "no_mangle", ")", "]"],
        &["#", "[", "rattlefmt", ":", ":", "skip", "]"],
        &["#", "!", "[", "tactic", "("],
        &["#", "[", "tactic", "("],
        &["#", "[", "derive", "("],
    ];
    if is_clause(source) {
        return block(source, "{", "}");
    }
    if ATTRIBUTES.iter().any(|begin| starts(source, begin)) {
        return block(source, "[", "]");
    }
    if starts(source, &["extern", "\"C\""]) {
        return 2;
    }
    0
}

/// What Rust is told beside the source: so many tokens at the beginning may be more.
fn added(made: &[Token], before: Option<&Token>) -> usize {
    if starts(made, &["#", "[", "derive"]) || starts(made, &["#", "[", "inline"]) {
        return block(made, "[", "]");
    }
    if starts(made, &["(", "crate", ")"]) && before.is_some_and(|token| token.text == "pub") {
        return 3;
    }
    0
}

/// What a file is told that takes a slice as an array.
const ARRAYS: &str = "#[allow(unused_imports)] use crate::arrays::Arrays as _;";

/// What a file may begin with that its source has not, each with its tokens: the other modules that it names, that it
/// has no unsafe code, and in a program the modules that stand for the kit's libraries.
fn added_first(made: &[Token]) -> usize {
    let arrays = tokens(ARRAYS);
    if starts(made, &texts(&arrays)) {
        return arrays.len();
    }
    if starts(made, &["use", "crate"]) || starts(made, &["use", "rainbow"]) {
        return up_to(made, ";");
    }
    let rest = match starts(made, &["#", "[", "allow", "(", "dead_code"]) {
        true => block(made, "[", "]"),
        false => 0,
    };
    if starts(&made[rest..], &["#", "[", "path"]) {
        return rest + up_to(&made[rest..], ";");
    }
    if starts(made, &["#", "!", "[", "forbid", "(", "unsafe_code"]) {
        return block(made, "[", "]");
    }
    0
}

/// What was compared of a file.
#[derive(Debug, Default, PartialEq)]
pub struct Compared {
    pub functions: usize,
    /// The tokens of their bodies.
    pub tokens: usize,
}

/// What stands at the end of a program's first file beside its source: a `main` that takes nothing, and calls the one
/// that is proved, which has another name.
const RENAMED: [&str; 2] = ["fn", "proved_main"];
const CALLER: &str = "fn main() -> std::io::Result<()> { proved_main(HostRuntime) }";

/// The tokens without that `main`, and the other one by its own name.
fn without_caller(mut made: Vec<Token<'_>>) -> Vec<Token<'_>> {
    let caller: Vec<&str> = tokens(CALLER).iter().map(|token| token.text).collect();
    let rest = made.len().saturating_sub(caller.len());
    if starts(&made[rest..], &caller) {
        made.truncate(rest);
        for at in 1..rest {
            if starts(&made[at - 1..], &RENAMED) {
                made[at].text = "main";
            }
        }
    }
    made
}

/// The tokens of a file in which its own crate has the name of the module that it becomes, `crate::NAME::` for `crate::`,
/// and std is core.
fn named<'a>(source: Vec<Token<'a>>, own: Option<&'a str>) -> Vec<Token<'a>> {
    let Some(own) = own else {
        return source;
    };
    let mut tokens = Vec::new();
    for (at, token) in source.iter().enumerate() {
        let line = token.line;
        let is_std = starts(&source[at..], &["std", ":", ":"]);
        let text = if is_std { "core" } else { token.text };
        tokens.push(Token { text, ..*token });
        if starts(&source[at..], &["crate", ":", ":"]) {
            tokens.extend([":", ":", own].map(|text| Token { text, line }));
        }
    }
    tokens
}

/// Compares a file of the package with its source. The source may begin as what is added does, so each number of
/// added parts is tried.
pub fn compare(source: &str, made: &str, own: Option<&str>) -> Result<Compared, String> {
    let (source, made) = (named(tokens(source), own), without_caller(tokens(made)));
    let mut begin = 0;
    let mut furthest = (0, String::new());
    loop {
        match from(&source, &made[begin..]) {
            Ok(compared) => return held(&source, &made).map(|()| compared),
            Err((at, why)) if at >= furthest.0 => furthest = (at, why),
            Err(_) => {}
        }
        match added_first(&made[begin..]) {
            0 => return Err(furthest.1),
            more => begin += more,
        }
    }
}

/// Compares tokens, or says after how many of the source's there is a difference, and which.
fn from(source: &[Token], made: &[Token]) -> Result<Compared, (usize, String)> {
    let (mut i, mut j) = (0, 0);
    let mut compared = Compared::default();
    // In the head of a function, and whether it is public; how deep in the braces of a body.
    let (mut head, mut public, mut depth) = (false, false, 0);
    // How deep in the brackets of a head, which a function of a trait may end without a body.
    let mut brackets = 0;
    while i < source.len() || j < made.len() {
        // Attributes as wholes, since each begins like every other.
        if depth == 0 {
            if ghost_item(&source[i..]) > 0 {
                i += ghost_item(&source[i..]);
                continue;
            }
            if starts(&source[i..], &["#"]) && left_out(&source[i..]) > 0 {
                i += left_out(&source[i..]);
                continue;
            }
            let more = added(&made[j..], None);
            let in_both = starts(&source[i..], &texts(&made[j..j + more]));
            if starts(&made[j..], &["#"]) && more > 0 && !in_both {
                j += more;
                continue;
            }
        }
        if let Some((kit, rust)) = shown(&source[i..], &made[j..]) {
            (i, j, head) = (i + kit, j + rust, true);
            continue;
        }
        let (old, new) = (source.get(i), made.get(j));
        if old.map(|token| token.text) != new.map(|token| token.text) {
            let before = j.checked_sub(1).map(|j| &made[j]);
            let (less, more) = match depth {
                0 => (left_out(&source[i..]), added(&made[j..], before)),
                _ => (0, 0),
            };
            if public && starts(&source[i..i + less], &["requires"]) {
                return Err((i, "a public function has lost its requires".to_string()));
            }
            match (less, more) {
                (0, 0) => return Err((i, differs(old, new))),
                (0, more) => j += more,
                (less, _) => i += less,
            }
            continue;
        }
        compared.tokens += usize::from(depth > 0);
        match source[i].text {
            "fn" => {
                (head, brackets) = (true, 0);
                public = j > 0 && made[j - 1].text == "pub";
            }
            "(" | "[" => brackets += 1,
            ")" | "]" => brackets -= 1,
            ";" if brackets == 0 => head = false,
            "{" if depth > 0 => depth += 1,
            "{" if head => {
                (head, depth) = (false, 1);
                compared.functions += 1;
            }
            "}" if depth > 0 => depth -= 1,
            _ => {}
        }
        (i, j) = (i + 1, j + 1);
    }
    Ok(compared)
}

/// A type or a trait that a file declares.
struct Declared<'t, 'a> {
    /// Whether `pub` stands before it, with nothing that says for whom.
    public: bool,
    word: &'a str,
    name: &'a str,
    /// Its brackets, with what is in them.
    body: &'t [Token<'a>],
}

impl Declared<'_, '_> {
    /// Whether only the crate can make a value of the type: it has a field, and none is public.
    fn is_hidden(&self) -> bool {
        let rest = |at: usize| &self.body[at + 1..];
        let is_open = |at: usize| {
            starts(&self.body[at..], &["pub"]) && !starts(rest(at), &["(", "crate", ")"])
        };
        match self.word {
            "struct" => self.body.len() > 2 && !(0..self.body.len()).any(is_open),
            _ => false,
        }
    }

    fn has_requires(&self) -> bool {
        let is_requires =
            |at| starts(&self.body[at..], &["requires"]) && is_clause(&self.body[at..]);
        (0..self.body.len()).any(is_requires)
    }
}

/// What a file declares by these words.
fn declared<'t, 'a>(tokens: &'t [Token<'a>], words: &[&str]) -> Vec<Declared<'t, 'a>> {
    let mut all = Vec::new();
    for (at, pair) in tokens.windows(2).enumerate() {
        if !words.contains(&pair[0].text) {
            continue;
        }
        let rest = &tokens[at + 2..];
        let rest = match starts(rest, &["<"]) {
            true => &rest[block(rest, "<", ">")..],
            false => rest,
        };
        let body = match rest.first().map(|token| token.text) {
            Some(";") => &rest[..0],
            Some("(") => &rest[..block(rest, "(", ")")],
            _ => &rest[up_to(rest, "{").saturating_sub(1)..block(rest, "{", "}")],
        };
        all.push(Declared {
            public: at > 0 && tokens[at - 1].text == "pub",
            word: pair[0].text,
            name: pair[1].text,
            body,
        });
    }
    all
}

/// The types of which a ghost part says something, or the invariant of a model.
fn spoken_of<'a>(source: &[Token<'a>]) -> Vec<&'a str> {
    let types = declared(source, &TYPES);
    let has_part = |one: &&Declared| one.body.iter().any(|token| token.text == "ghost");
    let mut names: Vec<&str> = types.iter().filter(has_part).map(|one| one.name).collect();
    for at in 0..source.len() {
        let model = &source[at..];
        if starts(model, &["Model", "for"]) {
            let model = &model[..block(model, "{", "}")];
            let mut pairs = model.windows(2);
            if pairs.any(|pair| starts(pair, &["ghost", "invariant"])) {
                names.push(model[2].text);
            }
        }
    }
    names
}

const TYPES: [&str; 3] = ["struct", "enum", "union"];

/// Whether no user can do what only a part that was left out kept him from: make a value of a type of which it says
/// something, or call a function of a trait that has a `requires`.
fn held(source: &[Token], made: &[Token]) -> Result<(), String> {
    let types = declared(made, &TYPES);
    for name in spoken_of(source) {
        let mut there = types.iter().filter(|one| one.name == name).peekable();
        if there.peek().is_none() || !there.all(Declared::is_hidden) {
            return Err(format!(
                "{name} has lost its ghost part, and users can make one"
            ));
        }
    }
    let traits = declared(made, &["trait"]);
    let is_open = |name| traits.iter().any(|one| one.public && one.name == name);
    for one in declared(source, &["trait"]) {
        if one.has_requires() && is_open(one.name) {
            return Err(format!("{} is public, and has lost a requires", one.name));
        }
    }
    Ok(())
}

fn differs(source: Option<&Token>, made: Option<&Token>) -> String {
    let said = |token: Option<&Token>| match token {
        Some(token) => format!("line {} has {}", token.line, token.text),
        None => "it ends".to_string(),
    };
    format!(
        "in the source {}, in the package {}",
        said(source),
        said(made)
    )
}

/// Whether a file has unsafe code.
pub fn has_unsafe(text: &str) -> bool {
    tokens(text).iter().any(|token| token.text == "unsafe")
}

#[cfg(test)]
mod tests {
    use super::*;
    use crate::package::module::module;

    const FILE: &str = "\
// A part.
#![tactic(auto)]

ghost use a.{b};
use lent::ByteRead;

#[repr(C)]
#[derive(Clone, Copy)]
pub struct S {
    pub a: u8,
}

// One more.
#[unsafe(no_mangle)]
#[tactic(
    auto,
    unfolding(crate::specs::M::g),
)]
pub extern \"C\" fn f(a: u8) -> u8
    requires unit { a ≡ Unit {0} }
    ensures { result ≡ a }
{
    if a < b'\\'' { // less
        return 1;
    }
    lent::put(b\"a // b\")
}
";

    fn made() -> String {
        module(FILE, None, &["use crate::lent;".to_string()], &[])
    }

    #[test]
    fn the_text_is_the_same() {
        let compared = compare(FILE, &made(), None).unwrap();
        assert_eq!(compared.functions, 1);
        assert_eq!(compared.tokens, 17);
    }

    #[test]
    fn every_other_token_is_noticed() {
        for (old, new) in [
            ("a < b", "a <= b"),
            ("return 1;", "return 1; lent::other();"),
            ("return 1;", ""),
            ("lent::put(b\"a // b\")", "lent::put(b\"a // c\")"),
            ("pub a: u8", "pub a: u16"),
            ("#[repr(C)]\n", ""),
            ("#[repr(C)]\n", "#[repr(C)]\n#[tactic(auto)]\n"),
            ("use lent::ByteRead;", "use lent::Other;"),
            ("    if a", "    use crate::lent;\n    if a"),
            ("    if a", "    #[allow(dead_code)]\n    if a"),
            ("    if a", "    #[inline(always)]\n    if a"),
            ("pub(crate) fn f(a: u8)", "pub(crate) fn f(a: u16)"),
        ] {
            let other = made().replacen(old, new, 1);
            assert_ne!(other, made(), "{old}");
            assert!(compare(FILE, &other, None).is_err(), "{old} -> {new}");
        }
        let longer = made() + "fn g() {}\n";
        assert!(compare(FILE, &longer, None).is_err());
    }

    #[test]
    fn a_function_with_a_requires_is_not_public() {
        let public = made().replacen("pub(crate) fn", "pub fn", 1);
        let why = compare(FILE, &public, None).unwrap_err();
        assert_eq!(why, "a public function has lost its requires");
        let private = made().replacen("pub(crate) fn", "fn", 1);
        assert!(compare(FILE, &private, None).is_err());
    }

    #[test]
    fn what_a_compiler_is_told_beside_the_text() {
        let source = "#[rattlefmt::skip]\nconst A: u8 = 1;\n\nfn f() {}\n";
        let made = module(source, None, &[], &["f"]);
        assert_eq!(made, "const A: u8 = 1;\n\n#[inline(always)]\nfn f() {}\n");
        assert!(compare(source, &made, None).is_ok());
    }

    #[test]
    fn a_main_that_takes_the_system() {
        let source = "fn main(rt: HostRuntime) -> io::Result<()> {\n    f(&rt)\n}\n";
        let made = source.replacen("main", "proved_main", 1) + CALLER;
        assert!(compare(source, &made, None).is_ok());
        for (old, new) in [
            ("    f(&rt)", "    g(&rt)"),
            ("fn proved_main", "fn other_main"),
            ("proved_main(HostRuntime)", "f(&HostRuntime)"),
            ("{ proved_main", "{ f(); proved_main"),
        ] {
            let other = made.replacen(old, new, 1);
            assert_ne!(other, made, "{old}");
            assert!(compare(source, &other, None).is_err(), "{old} -> {new}");
        }
    }

    #[test]
    fn ghost_parts_and_the_own_crate() {
        let source = "use std::marker::Model;\n\nuse crate::search::f;\n\n#[derive(Clone, Copy)]\npub struct Place {\n    \
                      at: u16,\n    pub ghost few: { at ≤ 3 },\n    pub kind: u8,\n}\n\nimpl Model for Place {\n    \
                      ghost Value = { ℕ };\n}\n\nimpl Place {\n    fn fmt<W: fmt::Write>(&self, f: &mut \
                      fmt::Formatter<W>) -> fmt::Result {\n        crate::g()\n    }\n}\n";
        let made = module(source, Some("chain"), &[], &[]);
        assert!(
            !made.contains("ghost") && made.contains("crate::chain::g()"),
            "{made}"
        );
        assert!(compare(source, &made, Some("chain")).is_ok());
        assert!(compare(source, &made, Some("other")).is_err());
        let other = made.replacen("    pub(crate) kind: u8,\n", "", 1);
        assert!(compare(source, &other, Some("chain")).is_err());
    }

    #[test]
    fn a_type_that_has_lost_a_ghost_part_is_made_by_the_crate_alone() {
        let part = "pub struct Page<'a> {\n    pub columns: usize,\n    screen: &'a [u8],\n    pub ghost few: { columns ≤ \
                    132 },\n}\n";
        let model = "pub struct Page<const N: usize> {\n    pub columns: usize,\n}\n\nimpl<const N: usize> Model for \
                     Page<N> {\n    ghost invariant = { λ page. page.columns ≤ N };\n}\n";
        for source in [part, model] {
            let made = module(source, None, &[], &[]);
            assert!(compare(source, &made, None).is_ok(), "{made}");
            let open = made.replacen("pub(crate) columns", "pub columns", 1);
            assert_ne!(open, made);
            let why = compare(source, &open, None).unwrap_err();
            assert_eq!(why, "Page has lost its ghost part, and users can make one");
        }
        for (source, made) in [
            // What has no other part, or parts that are always public; and a type of another file.
            ("pub struct Sign {\n    ghost few: { 1 },\n}\n", "pub struct Sign {\n}\n"),
            ("pub enum Sign {\n    A { n: u8, ghost few: { n } },\n}\n", "pub enum Sign {\n    A { n: u8, },\n}\n"),
            ("pub struct Sign(pub u8);\n\nimpl Model for Sign {\n    ghost invariant = { 1 };\n}\n", "pub struct Sign(pub u8);\n"),
            ("impl Model for Sign {\n    ghost invariant = { 1 };\n}\n", ""),
        ] {
            let why = compare(source, made, None).unwrap_err();
            assert_eq!(why, "Sign has lost its ghost part, and users can make one");
        }
        let seen = "pub struct Page {\n    pub columns: usize,\n}\n\nimpl Model for Page {\n    ghost Value = { ℕ };\n}\n";
        let made = module(seen, None, &[], &[]);
        assert!(made.contains("    pub columns: usize,") && compare(seen, &made, None).is_ok());
    }

    #[test]
    fn a_trait_with_a_requires_is_not_public() {
        let source =
            "pub trait Beside {\n    fn note(row: usize)\n        requires { row < 25 };\n}\n";
        let made = module(source, None, &[], &[]);
        assert!(compare(source, &made, None).is_ok(), "{made}");
        let open = made.replacen("pub(crate) trait", "pub trait", 1);
        let why = compare(source, &open, None).unwrap_err();
        assert_eq!(why, "Beside is public, and has lost a requires");
    }

    #[test]
    fn a_file_that_takes_slices_as_arrays() {
        let source =
            "// A part.\nuse lent::Refusal;\n\nfn f(bytes: &[u8]) {\n    g(bytes.as_array())\n}\n";
        let uses = [
            "use crate::lent;",
            "#[allow(unused_imports)]\nuse crate::arrays::Arrays as _;",
        ];
        let made = module(source, None, &uses.map(String::from), &[]);
        assert!(compare(source, &made, None).is_ok(), "{made}");
        for (old, new) in [
            ("(unused_imports)", "(unused_imports, dead_code)"),
            (
                "#[allow(unused_imports)]\nuse",
                "#[allow(unused_imports)]\n#[cfg(test)]\nuse",
            ),
            (
                "#[allow(unused_imports)]\nuse crate::arrays::Arrays as _;",
                "#[allow(unused_imports)]\nuse lent::Other as _;",
            ),
        ] {
            let other = made.replacen(old, new, 1);
            assert_ne!(other, made, "{old}");
            assert!(compare(source, &other, None).is_err(), "{old} -> {new}");
        }
    }

    #[test]
    fn a_contract_in_a_body_is_no_contract() {
        let source = "fn f() {\n    ensures { 1 }\n}\n";
        assert!(compare(source, "fn f() {\n}\n", None).is_err());
    }

    #[test]
    fn unsafe_code_is_seen() {
        assert!(has_unsafe("fn f() { unsafe { g() } }"));
        assert!(!has_unsafe("// unsafe\n#![forbid(unsafe_code)]"));
    }
}
