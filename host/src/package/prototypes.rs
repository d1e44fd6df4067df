//! A C file by which a compiler compares include/rainbow.h with crate rainbow: every function declared again, from its
//! head in the source, and every struct that C is handed, field by field. Where the header says something else, the
//! file does not compile.
use super::c::{fields, Function};

const HEAD: &str = "\
/* Made by `make rust`: the functions and structs of crates/, declared beside those of rainbow.h. */
#include \"rainbow.h\"
";

/// A name of Rust's kind as C has it: ByteRead is byte_read.
fn lower(name: &str) -> String {
    let mut lower = String::new();
    for character in name.chars() {
        if character.is_ascii_uppercase() && !lower.is_empty() {
            lower.push('_');
        }
        lower.push(character.to_ascii_lowercase());
    }
    lower
}

/// A type as C has it.
fn c_type(kind: &str) -> String {
    match kind {
        "u8" | "u16" | "u32" | "u64" => format!("uint{}_t", &kind[1..]),
        "usize" => "size_t".to_string(),
        "bool" => "bool".to_string(),
        "&[u8]" => "const uint8_t *, size_t".to_string(),
        "&mut[u8]" => "uint8_t *, size_t".to_string(),
        _ => format!("rainbow_{}", lower(kind)),
    }
}

/// The kind of an array's elements and how many there are, which is a constant of the text.
fn array<'a>(kind: &'a str, text: &'a str) -> Option<(&'a str, &'a str)> {
    let (element, length) = kind.strip_prefix('[')?.strip_suffix(']')?.split_once(';')?;
    let (_, value) = text.split_once(&format!("const {length}: usize = "))?;
    Some((element, value.split_once(';')?.0))
}

/// A field declared, and the type that an expression of it has: an array is the pointer that it becomes.
fn field(name: &str, kind: &str, text: &str) -> (String, String) {
    match array(kind, text) {
        Some((element, length)) => {
            let element = c_type(element);
            (
                format!("{element} {name}[{length}]"),
                format!("{element} *"),
            )
        }
        None => (format!("{} {name}", c_type(kind)), c_type(kind)),
    }
}

fn prototype(function: &Function) -> String {
    let given = function.parameters.iter().map(|one| c_type(&one.kind));
    let given = given.collect::<Vec<_>>().join(", ");
    let given = if given.is_empty() { "void" } else { &given };
    format!("{} {}({given});\n", c_type(&function.answer), function.name)
}

/// A struct declared again, and that each field is where the header's is.
fn structure(name: &str, text: &str) -> String {
    let (there, here) = (c_type(name), format!("struct source_{}", lower(name)));
    let fields = fields(text, name);
    let mut code = format!("\n{here} {{\n");
    for one in &fields {
        code += &format!("    {};\n", field(one.name, &one.kind, text).0);
    }
    code += &format!("}};\n_Static_assert(sizeof({there}) == sizeof({here}), \"{there}\");\n");
    for one in &fields {
        let name = one.name;
        code += &format!(
            "_Static_assert(offsetof({there}, {name}) == offsetof({here}, {name}) && \
             sizeof((({there} *)0)->{name}) == sizeof((({here} *)0)->{name}) && \
             _Generic((({there} *)0)->{name}, {}: 1, default: 0),\n               \"{there}.{name}\");\n",
            field(name, &one.kind, text).1
        );
    }
    code
}

/// The whole file. `structs` are the names of those that C is handed, each with the text that declares it.
pub fn file(functions: &[Function], structs: &[(&str, &str)]) -> String {
    let mut text = HEAD.to_string() + "\n";
    text.extend(functions.iter().map(prototype));
    text.extend(structs.iter().map(|(name, text)| structure(name, text)));
    text
}

/// The functions that a header declares.
pub fn declared(header: &str) -> Vec<&str> {
    let is_name = |c: char| c.is_ascii_alphanumeric() || c == '_';
    let declares =
        |line: &&str| line.starts_with(char::is_alphabetic) && !line.starts_with("typedef");
    let before = header
        .lines()
        .filter(declares)
        .filter_map(|line| line.split_once('('));
    let names =
        before.map(|(before, _)| &before[before.rfind(|c| !is_name(c)).map_or(0, |at| at + 1)..]);
    names.filter(|name| name.starts_with("rainbow_")).collect()
}

#[cfg(test)]
mod tests {
    use super::super::c::functions;
    use super::*;

    #[test]
    fn a_function_and_a_struct() {
        let text = "#[repr(C)]\npub struct ByteRead {\n    // 0 to 6.\n    pub refusal: u8,\n    pub at: usize,\n    \
                    pub wild: bool,\n}\n\
                    pub extern \"C\" fn rainbow_f(a: &[u8], b: &mut [u8], m: Machine) -> ByteRead\n{\n}\n\
                    pub extern \"C\" fn rainbow_g() -> u16\n{\n}\n";
        let made = file(&functions("a", text), &[("ByteRead", text)]);
        let head = "rainbow_byte_read rainbow_f(const uint8_t *, size_t, uint8_t *, size_t, rainbow_machine);\n\
                    uint16_t rainbow_g(void);\n";
        assert!(made.contains(head), "{made}");
        assert!(made.contains(
            "struct source_byte_read {\n    uint8_t refusal;\n    size_t at;\n    bool wild;\n};\n"
        ));
        assert!(made.contains("_Generic(((rainbow_byte_read *)0)->wild, bool: 1, default: 0)"));
        assert!(made
            .contains("offsetof(rainbow_byte_read, at) == offsetof(struct source_byte_read, at)"));
    }

    #[test]
    fn an_array_and_a_struct_in_a_struct() {
        let text = "pub const MANY: usize = 8;\n#[repr(C)]\npub struct Both {\n    pub one: ByteRead,\n    \
                    pub all: [u32; MANY],\n}\n";
        let made = file(&[], &[("Both", text)]);
        assert!(
            made.contains("    rainbow_byte_read one;\n    uint32_t all[8];\n};\n"),
            "{made}"
        );
        assert!(made.contains("_Generic(((rainbow_both *)0)->all, uint32_t *: 1, default: 0)"));
        assert!(made.contains(
            "sizeof(((rainbow_both *)0)->all) == sizeof(((struct source_both *)0)->all)"
        ));
    }

    #[test]
    fn functions_of_a_header() {
        let header = "/* rainbow_not(1) */\nuint8_t rainbow_a(void);\nrainbow_drawn rainbow_b(int a,\n      int b);\n\
                      const uint8_t *rainbow_c(int a);\n#define RAINBOW_D(a) a\n";
        assert_eq!(declared(header), ["rainbow_a", "rainbow_b", "rainbow_c"]);
    }
}
