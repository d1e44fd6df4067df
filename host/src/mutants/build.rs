//! Builds the programs from the code, unproved, by rustc.
use super::Mutant;
use crate::rattle::tree::{files_of, Crate, Tree};
use crate::rattle::{code, kit};
use std::fs;
use std::io;
use std::path::{Path, PathBuf};
use std::process::{Command, Stdio};

/// A folder with the code as Rust, and what was built of it.
pub struct Shop<'a> {
    pub tree: &'a Tree,
    pub folder: PathBuf,
}

impl<'a> Shop<'a> {
    /// Writes all code to a folder and builds it.
    pub fn open(root: &Path, tree: &'a Tree, folder: PathBuf) -> Result<Shop<'a>, String> {
        let shop = Shop { tree, folder };
        shop.write(root).map_err(|error| error.to_string())?;
        for (name, _) in kit::LIBRARIES {
            shop.build(&Crate {
                name: name.to_string(),
                needs: Vec::new(),
                is_program: false,
            })?;
        }
        for one in &tree.crates {
            shop.build(one)?;
        }
        Ok(shop)
    }

    fn write(&self, root: &Path) -> io::Result<()> {
        fs::create_dir_all(self.folder.join("built"))?;
        for (name, text) in kit::LIBRARIES {
            fs::create_dir_all(self.source(name))?;
            fs::write(self.source(name).join("lib.rs"), text)?;
        }
        for one in &self.tree.crates {
            fs::create_dir_all(self.source(&one.name))?;
            for file in files_of(root, &one.name)? {
                self.write_file(&one.name, &file, &fs::read_to_string(root.join(&file))?)?;
            }
        }
        Ok(())
    }

    fn source(&self, name: &str) -> PathBuf {
        self.folder.join("src").join(name)
    }

    fn write_file(&self, crate_name: &str, file: &str, text: &str) -> io::Result<()> {
        let name = Path::new(file).with_extension("rs");
        let name = name.file_name().unwrap_or_default();
        fs::write(self.source(crate_name).join(name), code::rust(text))
    }

    pub fn built(&self, name: &str) -> PathBuf {
        self.folder.join("built").join(name)
    }

    fn library(&self, name: &str) -> PathBuf {
        self.built(&format!("lib{name}.rlib"))
    }

    /// Builds a crate, or says why rustc does not take it.
    pub fn build(&self, one: &Crate) -> Result<(), String> {
        let mut rustc = Command::new("rustc");
        let words = "--edition 2021 -A warnings -C opt-level=1 -C overflow-checks=on";
        rustc
            .args(words.split(' '))
            .args(["--crate-name", &one.name]);
        rustc.arg("-L").arg(self.folder.join("built"));
        for need in &one.needs {
            rustc
                .arg("--extern")
                .arg(format!("{need}={}", self.library(need).display()));
        }
        let source = self.source(&one.name);
        if one.is_program {
            rustc
                .arg(source.join("main.rs"))
                .arg("-o")
                .arg(self.built(&one.name));
        } else {
            rustc
                .args(["--crate-type", "rlib"])
                .arg(source.join("lib.rs"));
            rustc.arg("-o").arg(self.library(&one.name));
        }
        let done = rustc
            .stdin(Stdio::null())
            .output()
            .map_err(|error| format!("rustc: {error}"))?;
        if done.status.success() {
            return Ok(());
        }
        Err(format!(
            "{}: {}",
            one.name,
            String::from_utf8_lossy(&done.stderr)
        ))
    }

    /// Another folder with the same.
    pub fn copy_to(&self, folder: PathBuf) -> io::Result<Shop<'a>> {
        for part in ["src", "built"] {
            copy_folder(&self.folder.join(part), &folder.join(part))?;
        }
        Ok(Shop {
            tree: self.tree,
            folder,
        })
    }

    /// Puts a mutant's file in its place; the libraries that are made of it are built anew.
    pub fn put(&self, mutant: &Mutant) -> Result<(), String> {
        self.write_file(&mutant.crate_name, &mutant.file, &mutant.text)
            .map_err(|error| error.to_string())?;
        let made = self.tree.made_of(&mutant.crate_name);
        made.into_iter()
            .filter(|one| !one.is_program)
            .try_for_each(|one| self.build(one))
    }

    /// Makes what a mutant changed as it is in another folder.
    pub fn restore(&self, from: &Shop, mutant: &Mutant) -> io::Result<()> {
        let source = from.source(&mutant.crate_name);
        copy_folder(&source, &self.source(&mutant.crate_name))?;
        for one in self.tree.made_of(&mutant.crate_name) {
            for name in [one.name.clone(), format!("lib{}.rlib", one.name)] {
                if from.built(&name).exists() {
                    fs::copy(from.built(&name), self.built(&name))?;
                }
            }
        }
        Ok(())
    }
}

fn copy_folder(from: &Path, to: &Path) -> io::Result<()> {
    fs::create_dir_all(to)?;
    for entry in fs::read_dir(from)? {
        let entry = entry?;
        let there = to.join(entry.file_name());
        if entry.file_type()?.is_dir() {
            copy_folder(&entry.path(), &there)?;
        } else {
            fs::copy(entry.path(), there)?;
        }
    }
    Ok(())
}
