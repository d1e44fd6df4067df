//! What the programs use of the kit's std and Rust's has not so: crate console, which is written over it, in Rust by
//! hand.
pub const LIBRARIES: [(&str, &str); 1] = [("console", include_str!("../../kit/console.rs"))];

/// The handle that stands for the system, and the macros that take it, by which a program writes.
const HANDLE: &str = "HostRuntime";
const MACROS: [&str; 4] = ["print", "println", "eprint", "eprintln"];

/// Whether a crate of crates.txt is written by hand in Rust.
pub fn is_kit(name: &str) -> bool {
    LIBRARIES.iter().any(|(one, _)| *one == name)
}

/// The names among those that the code of a file has, by the words of its tokens.
pub fn names<'a>(words: &[&'a str]) -> Vec<&'a str> {
    let mut names: Vec<&str> = words
        .iter()
        .enumerate()
        .filter(|(at, word)| {
            **word == HANDLE || MACROS.contains(*word) && words.get(at + 1) == Some(&"!")
        })
        .map(|(_, word)| *word)
        .collect();
    names.sort_unstable();
    names.dedup();
    names
}

/// What stands for the functions of slices that Rust has from 1.93 on, where it is older.
pub const ARRAYS: &str = include_str!("../../package/arrays.rs");

/// Whether the code of a file takes a slice as an array.
pub fn takes_arrays(words: &[&str]) -> bool {
    let is_call = |pair: &[&str]| pair[0] == "." && matches!(pair[1], "as_array" | "as_mut_array");
    words.windows(2).any(is_call)
}

/// How a program's `main` begins, which takes the handle. Rust's takes nothing, so it gets another name there, and
/// another `main` calls it.
pub const MAIN: &str = "fn main(rt: HostRuntime)";
pub const RENAMED: &str = "fn proved_main(rt: HostRuntime)";
pub const CALLER: &str = "
fn main() -> std::io::Result<()> {
    proved_main(HostRuntime)
}
";

#[cfg(test)]
mod tests {
    use super::*;

    #[test]
    fn names_of_a_file() {
        let words = [
            "f",
            "(",
            "HostRuntime",
            "println",
            "!",
            "(",
            "print",
            "println",
            "!",
        ];
        assert_eq!(names(&words), ["HostRuntime", "println"]);
    }

    #[test]
    fn slices_as_arrays() {
        assert!(takes_arrays(&["a", ".", "as_mut_array", "(", ")"]));
        assert!(!takes_arrays(&["as_array", "(", "a", ")"]));
    }
}
