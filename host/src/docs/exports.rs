//! The exports of crate rainbow_c beside the calls of crate rainbow. What crates/runs shows of a contract of rainbow holds
//! of the archive for C only if that exports the call under the same contract and hands on what it is given.

/// A function that C may call.
struct Export<'a> {
    /// Its signature and its contract.
    head: &'a str,
    body: &'a str,
}

/// The functions of a file that C may call, in their order.
fn exports(text: &str) -> Vec<Export<'_>> {
    let parts = text.split("#[unsafe(no_mangle)]\n").skip(1);
    let split = parts.map(|part| {
        let (head, rest) = part.split_once("\n{\n").unwrap_or((part, ""));
        let (body, _) = rest.split_once("\n}").unwrap_or((rest, ""));
        Export { head, body }
    });
    split.collect()
}

/// The text without its layout: no blanks, and no comma ahead of a closing bracket.
fn packed(text: &str) -> String {
    let text: String = text.split_whitespace().collect();
    text.replace(",)", ")")
}

/// The name of a function and its parameters' names, from its head.
fn call(head: &str) -> Option<(&str, Vec<&str>)> {
    let (_, rest) = head.split_once("fn ")?;
    let (name, rest) = rest.split_once('(')?;
    let (parameters, _) = rest.split_once(')')?;
    let names = parameters.split(',').filter_map(|one| one.split_once(':'));
    Some((name, names.map(|(name, _)| name.trim()).collect()))
}

/// What a module of the archive exports otherwise than the library has it.
pub fn problems(module: &str, library: &str, archive: &str) -> Vec<String> {
    let (library, archive) = (exports(library), exports(archive));
    let mut problems = Vec::new();
    if library.len() != archive.len() {
        let (has, of) = (archive.len(), library.len());
        problems.push(format!("rainbow_c exports {has} of {of} calls of {module}"));
    }
    for (call_of, export) in library.iter().zip(&archive) {
        let Some((name, names)) = call(call_of.head) else {
            problems.push(format!("a call of rainbow's {module} cannot be read"));
            continue;
        };
        if packed(call_of.head) != packed(export.head) {
            problems.push(format!("rainbow_c has another head or contract of {name}"));
        }
        let hands_on = format!("rainbow::{module}::{name}({})", names.join(","));
        if packed(export.body) != hands_on {
            problems.push(format!("{name} of rainbow_c is not the call of rainbow's"));
        }
    }
    problems
}

#[cfg(test)]
mod tests {
    use super::problems;

    const LIBRARY: &str = "\
#[unsafe(no_mangle)]
pub extern \"C\" fn f(a: u8, b: &mut [u8]) -> u8
    ensures { result ≡ f a b.old }
{
    inner::f(a, b)
}
";

    fn archive(contract: &str, body: &str) -> String {
        let head =
            "#[unsafe(no_mangle)]\npub extern \"C\" fn f(\n    a: u8,\n    b: &mut [u8],\n) -> u8";
        format!("{head}\n    ensures {{ {contract} }}\n{{\n    {body}\n}}\n")
    }

    #[test]
    fn the_same_contract_and_the_call_are_right() {
        let right = archive("result ≡ f a b.old", "rainbow::m::f(a, b)");
        assert_eq!(problems("m", LIBRARY, &right), Vec::<String>::new());
    }

    #[test]
    fn another_contract_another_order_and_no_export_are_told() {
        let weaker = archive("result ≤ f a b.old", "rainbow::m::f(a, b)");
        assert_eq!(problems("m", LIBRARY, &weaker).len(), 1);
        let swapped = archive("result ≡ f a b.old", "rainbow::m::f(b, a)");
        assert_eq!(problems("m", LIBRARY, &swapped).len(), 1);
        assert_eq!(problems("m", LIBRARY, "").len(), 1);
    }
}
