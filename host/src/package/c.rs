//! The file of the package that C calls: for each function of crate rainbow one that takes pointers and lengths, makes
//! slices of them and hands them on. It is made from the functions' own heads, so that a new call needs no line here.
use crate::rattle::code::{self, Token};

const HEAD: &str = include_str!("../../package/c.rs");

/// A parameter, or a field.
pub struct Parameter<'a> {
    pub name: &'a str,
    pub kind: String,
}

/// The head of a function that is exported.
pub struct Function<'a> {
    module: &'a str,
    remark: Vec<&'a str>,
    pub name: &'a str,
    pub parameters: Vec<Parameter<'a>>,
    pub answer: String,
}

fn word<'a>(text: &'a str, token: &Token) -> &'a str {
    &text[token.span.clone()]
}

/// The words `name: type,` up to a closing bracket.
fn parameters<'a>(text: &'a str, tokens: &[Token], close: &str) -> Vec<Parameter<'a>> {
    let end = tokens.iter().position(|token| word(text, token) == close);
    let tokens = &tokens[..end.unwrap_or(tokens.len())];
    let each = tokens.split(|token| word(text, token) == ",");
    each.filter(|tokens| !tokens.is_empty())
        .map(|tokens| {
            let tokens = match word(text, &tokens[0]) {
                "pub" => &tokens[1..],
                _ => tokens,
            };
            let name = word(text, &tokens[0]);
            let kind = tokens[2..].iter().map(|token| word(text, token));
            let kind = kind.collect::<String>();
            Parameter { name, kind }
        })
        .collect()
}

/// The remark above the line that a token is in.
fn remark(text: &str, at: usize) -> Vec<&str> {
    let above = code::lines(text);
    let above = &above[..text[..at].matches('\n').count()];
    let is_above = |line: &&code::Line| {
        line.ghost || line.text.starts_with("//") || line.text.starts_with("#[")
    };
    let lines = above.iter().rev().take_while(is_above);
    let mut lines: Vec<&str> = lines
        .map(|line| line.text)
        .filter(|line| line.starts_with("//"))
        .collect();
    lines.reverse();
    lines
}

/// The exported functions of a file.
pub fn functions<'a>(module: &'a str, text: &'a str) -> Vec<Function<'a>> {
    let tokens = code::tokens(text);
    let mut functions = Vec::new();
    for (at, token) in tokens.iter().enumerate() {
        let name = match tokens.get(at + 1) {
            Some(name) if word(text, token) == "fn" => word(text, name),
            _ => continue,
        };
        let rest = &tokens[at + 3..];
        let arrow = rest.iter().position(|token| word(text, token) == "->");
        let answer = arrow.and_then(|arrow| rest.get(arrow + 1));
        functions.push(Function {
            module,
            remark: remark(text, token.span.start),
            name,
            parameters: parameters(text, rest, ")"),
            answer: answer.map_or(String::new(), |token| word(text, token).to_string()),
        });
    }
    functions
}

impl Function<'_> {
    fn text(&self) -> String {
        let mut text = String::new();
        for line in &self.remark {
            text += &format!("{}\n", line.replacen("//", "///", 1));
        }
        if self.parameters.iter().any(|one| one.kind.starts_with('&')) {
            text += "///\n/// # Safety\n/// Each pointer is NULL or that of a buffer with the length after it.\n";
        }
        let heads: Vec<String> = self.parameters.iter().flat_map(Parameter::heads).collect();
        let handed: Vec<String> = self.parameters.iter().map(Parameter::handed).collect();
        let is_unsafe = if heads.iter().any(|head| head.contains('*')) {
            "unsafe "
        } else {
            ""
        };
        let head = format!("pub {is_unsafe}extern \"C\" fn {}", self.name);
        let answer = format!(" -> {} {{", self.answer);
        let call = format!("    {}::{}", self.module, self.name);
        text += &format!("#[no_mangle]\n{}", bracketed(&head, &heads, &answer, ""));
        text + &bracketed(&call, &handed, "", "    ") + "}\n"
    }
}

/// Words in brackets after others, in one line if they fit.
fn bracketed(before: &str, words: &[String], after: &str, indent: &str) -> String {
    let line = format!("{before}({}){after}\n", words.join(", "));
    if line.len() <= 101 {
        return line;
    }
    let words = words.iter().map(|word| format!("{indent}    {word},\n"));
    format!("{before}(\n{}{indent}){after}\n", words.collect::<String>())
}

impl Parameter<'_> {
    /// What takes it from C.
    fn heads(&self) -> Vec<String> {
        let Parameter { name, kind } = self;
        match kind.as_str() {
            "&[u8]" => vec![
                format!("{name}: *const u8"),
                format!("{name}_length: usize"),
            ],
            "&mut[u8]" => vec![format!("{name}: *mut u8"), format!("{name}_length: usize")],
            "Machine" => vec![format!("{name}: MachineBytes")],
            _ => vec![format!("{name}: {kind}")],
        }
    }

    /// What hands it on.
    fn handed(&self) -> String {
        let Parameter { name, kind } = self;
        match kind.as_str() {
            "&[u8]" => format!("unsafe {{ lent({name}, {name}_length) }}"),
            "&mut[u8]" => format!("unsafe {{ lent_mut({name}, {name}_length) }}"),
            "Machine" => format!("{name}.machine()"),
            _ => name.to_string(),
        }
    }
}

/// The fields of a struct.
pub fn fields<'a>(text: &'a str, name: &str) -> Vec<Parameter<'a>> {
    let tokens = code::tokens(text);
    let is_struct =
        |pair: &[Token]| word(text, &pair[0]) == "struct" && word(text, &pair[1]) == name;
    match tokens.windows(2).position(is_struct) {
        Some(at) => parameters(text, &tokens[at + 3..], "}"),
        None => Vec::new(),
    }
}

/// The machine as bytes, from the fields that it has.
fn machine_bytes(machine: &str) -> String {
    let fields = fields(machine, "Machine");
    let mut text = String::from(
        "/// The machine as C hands it over. A bool is a byte here, and every byte but 0 is true.\n\
         #[repr(C)]\npub struct MachineBytes {\n",
    );
    for Parameter { name, kind } in &fields {
        let kind = if kind == "bool" { "u8" } else { kind };
        text += &format!("    {name}: {kind},\n");
    }
    text += "}\n\nimpl MachineBytes {\n    fn machine(self) -> Machine {\n        Machine {\n";
    for Parameter { name, kind } in &fields {
        let test = if kind == "bool" { " != 0" } else { "" };
        text += &format!("            {name}: self.{name}{test},\n");
    }
    text + "        }\n    }\n}\n"
}

/// The whole file, of the functions of crate rainbow, its files by their names, and the file that declares the machine.
pub fn file(functions: &[Function], rainbow: &[(String, String)], machine: &str) -> String {
    let mut modules: Vec<&str> = functions.iter().map(|one| one.module).collect();
    modules.dedup();
    let mut answers: Vec<&str> = functions.iter().map(|one| one.answer.as_str()).collect();
    answers.sort_unstable();
    answers.dedup();
    let mut uses: Vec<String> = answers
        .iter()
        .filter_map(|answer| declared(answer, rainbow))
        .collect();
    uses.push(format!("use crate::rainbow::{{{}}};\n", modules.join(", ")));
    uses.sort_unstable();
    let head = HEAD.replace("// USES\n", &uses.concat());
    let mut text = head + "\n" + &machine_bytes(machine);
    for function in functions {
        text += &format!("\n{}", function.text());
    }
    text
}

/// The line by which a file of crate rainbow uses a type, or the one for a type that it declares.
fn declared(kind: &str, rainbow: &[(String, String)]) -> Option<String> {
    for (module, text) in rainbow {
        if text.contains(&format!("pub struct {kind} {{")) {
            return Some(format!("use crate::rainbow::{module}::{kind};\n"));
        }
        let of_line = text.lines().find_map(|line| used(line, kind));
        if let Some(from) = of_line {
            return Some(format!("use crate::{from}::{kind};\n"));
        }
    }
    None
}

/// The crate that a line uses a type of, alone or among others.
fn used<'a>(line: &'a str, kind: &str) -> Option<&'a str> {
    let (from, names) = line
        .strip_prefix("use ")?
        .strip_suffix(';')?
        .split_once("::")?;
    let names = names.strip_prefix('{').unwrap_or(names);
    let names = names.strip_suffix('}').unwrap_or(names);
    names.split(", ").any(|name| name == kind).then_some(from)
}

#[cfg(test)]
mod tests {
    use super::*;

    const SCREEN: &str = "\
use machine::Machine;
use picture::{Drawn, FirstWild};

// Draws the picture
// afresh.
#[unsafe(no_mangle)]
#[tactic(
    auto,
    unfolding(crate::specs::M::f),
)]
pub extern \"C\" fn rainbow_draw(machine: Machine, screen: &[u8], picture: &mut [u8], n: u16) -> Drawn
    ensures { drawn result ≡ draw machine }
{
    picture::draw(machine, screen, picture, n)
}
";

    const MACHINE: &str = "\
pub struct Machine {
    // Blinks.
    pub blink: bool,
    pub ticks: u16,
}
";

    #[test]
    fn pointers_and_lengths_are_handed_on() {
        let files = [("screen".to_string(), SCREEN.to_string())];
        let text = file(&functions("screen", SCREEN), &files, MACHINE);
        let wanted = "
/// Draws the picture
/// afresh.
///
/// # Safety
/// Each pointer is NULL or that of a buffer with the length after it.
#[no_mangle]
pub unsafe extern \"C\" fn rainbow_draw(
    machine: MachineBytes,
    screen: *const u8,
    screen_length: usize,
    picture: *mut u8,
    picture_length: usize,
    n: u16,
) -> Drawn {
    screen::rainbow_draw(
        machine.machine(),
        unsafe { lent(screen, screen_length) },
        unsafe { lent_mut(picture, picture_length) },
        n,
    )
}
";
        assert!(text.ends_with(wanted), "{text}");
        assert!(text.contains("    blink: u8,\n    ticks: u16,\n"));
        assert!(text.contains("blink: self.blink != 0,\n            ticks: self.ticks,\n"));
        assert!(text.contains("use crate::picture::Drawn;\nuse crate::rainbow::{screen};\n"));
    }
}
