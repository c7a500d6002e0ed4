//! The index docs/RULES.md held to the repository: what it names must exist, and what must be named there is.
//! A theorem that it names has exactly a claim of specs/ as its type.
//!
//! A name stands in backticks and is of one of these forms:
//!
//! | Form | Means |
//! |---|---|
//! | `crate.File.name` | a definition or claim in crates/CRATE/specs/File.antt |
//! | `crate.File` | that file |
//! | `crate.proofs.File.name` | a theorem in crates/CRATE/proofs/File.antt |
//! | `crate::path::function` | a function in crates/CRATE/src/ |
//! | `crate/label` | the wrong build crates/CRATE/must-fail/label.edit |
//! | `folder/` | that folder |

use std::collections::BTreeSet;
use std::fs;
use std::path::{Path, PathBuf};

/// The top of the repository.
pub fn root() -> PathBuf {
    Path::new(env!("CARGO_MANIFEST_DIR")).join("../..")
}

fn read(path: &Path) -> String {
    fs::read_to_string(path).unwrap_or_default()
}

/// Every name in backticks in the tables of docs/RULES.md.
pub fn names() -> BTreeSet<String> {
    let text = read(&root().join("docs/RULES.md"));
    let rows = text.lines().filter(|line| line.starts_with('|'));
    rows.flat_map(|row| row.split('`').skip(1).step_by(2))
        .map(str::to_owned)
        .collect()
}

/// The files below a folder whose names end so.
fn files(folder: &Path, suffix: &str) -> Vec<PathBuf> {
    let Ok(entries) = fs::read_dir(folder) else {
        return Vec::new();
    };
    let mut found = Vec::new();
    for entry in entries.flatten() {
        let path = entry.path();
        if path.is_dir() {
            found.extend(files(&path, suffix));
        } else if path.to_string_lossy().ends_with(suffix) {
            found.push(path);
        }
    }
    found
}

/// Whether a file of antt declares a name: `abbrev pub name :`, `pub record name (..`, or a field `pub name :` of one.
fn declares(path: &Path, name: &str) -> bool {
    read(path).lines().any(|line| {
        let mut words = line.split_whitespace();
        words.any(|word| word == "pub") && {
            let word = words.find(|word| !["record", "data"].contains(word));
            word == Some(name)
        }
    })
}

/// Whether some file of a crate's src/ has the function, with type parameters or without.
fn has_function(crate_folder: &Path, name: &str) -> bool {
    let openings = [format!("fn {name}("), format!("fn {name}<")];
    files(&crate_folder.join("src"), ".rt")
        .iter()
        .map(|path| read(path))
        .any(|text| openings.iter().any(|opening| text.contains(opening)))
}

/// Whether what a name stands for is there.
pub fn exists(name: &str) -> bool {
    let crates = root().join("crates");
    if name.ends_with('/') {
        return root().join(name).is_dir();
    }
    if let Some((krate, label)) = name.split_once('/') {
        return crates
            .join(krate)
            .join("must-fail")
            .join(format!("{label}.edit"))
            .is_file();
    }
    if let Some((krate, path)) = name.split_once("::") {
        return has_function(
            &crates.join(krate),
            path.rsplit("::").next().unwrap_or(path),
        );
    }
    match name.split('.').collect::<Vec<_>>()[..] {
        [krate, "proofs", file, theorem] => declares(
            &crates
                .join(krate)
                .join("proofs")
                .join(format!("{file}.antt")),
            theorem,
        ),
        [krate, file, definition] => declares(
            &crates
                .join(krate)
                .join("specs")
                .join(format!("{file}.antt")),
            definition,
        ),
        [krate, file] => crates
            .join(krate)
            .join("specs")
            .join(format!("{file}.antt"))
            .is_file(),
        _ => false,
    }
}

/// The crates of the repository that are libraries.
fn libraries() -> Vec<String> {
    let entries = fs::read_dir(root().join("crates")).expect("crates/");
    let folders = entries.flatten().map(|entry| entry.path());
    folders
        .filter(|folder| folder.join("src/lib.rt").is_file())
        .map(|folder| folder.file_name().unwrap().to_string_lossy().into_owned())
        .collect()
}

/// Every wrong build, as `crate/label`.
pub fn wrong_builds() -> Vec<String> {
    let mut found = Vec::new();
    for krate in libraries() {
        for path in files(
            &root().join("crates").join(&krate).join("must-fail"),
            ".edit",
        ) {
            found.push(format!(
                "{krate}/{}",
                path.file_stem().unwrap().to_string_lossy()
            ));
        }
    }
    found
}

/// Every public function of a library, as its crate and its own name: an impl of `From` is one by the name `from`, of `TryFrom`
/// `try_from`.
pub fn public_functions() -> Vec<(String, String)> {
    let mut found = Vec::new();
    for krate in libraries() {
        for path in files(&root().join("crates").join(&krate).join("src"), ".rt") {
            for line in read(&path).lines() {
                let line = line.trim_start();
                let rest = line
                    .strip_prefix("pub fn ")
                    .or_else(|| line.strip_prefix("pub extern \"C\" fn "));
                if let Some((name, _)) = rest.and_then(|rest| rest.split_once(['(', '<'])) {
                    found.push((krate.clone(), name.to_owned()));
                }
                if line.starts_with("impl From<") {
                    found.push((krate.clone(), "from".to_owned()));
                }
                if line.starts_with("impl TryFrom<") {
                    found.push((krate.clone(), "try_from".to_owned()));
                }
            }
        }
    }
    found
}

/// Every file of definitions, as `crate.File`.
pub fn definition_files() -> Vec<String> {
    let mut found = Vec::new();
    for krate in libraries() {
        for path in files(&root().join("crates").join(&krate).join("specs"), ".antt") {
            let stem = path.file_stem().unwrap().to_string_lossy().into_owned();
            if stem != "Lib" {
                found.push(format!("{krate}.{stem}"));
            }
        }
    }
    found
}

/// Every theorem of a crate's proofs/ whose type is one name, as `crate.proofs.File.theorem` with that name. A claim is such a
/// name: a closed type of specs/, with every hypothesis in it.
pub fn theorems() -> Vec<(String, String)> {
    let mut found = Vec::new();
    for krate in libraries() {
        let Ok(entries) = fs::read_dir(root().join("crates").join(&krate).join("proofs")) else {
            continue;
        };
        for path in entries.flatten().map(|entry| entry.path()) {
            if path.is_dir() {
                continue;
            }
            let stem = path.file_stem().unwrap().to_string_lossy().into_owned();
            for line in read(&path).lines() {
                let words: Vec<_> = line.split_whitespace().collect();
                if let ["pub", theorem, ":", claim] = words[..] {
                    if line.starts_with("pub ") && claim.starts_with(char::is_uppercase) {
                        found.push((format!("{krate}.proofs.{stem}.{theorem}"), claim.to_owned()));
                    }
                }
            }
        }
    }
    found
}

/// Whether some specs/ declares this claim, as a closed type.
pub fn is_claim(name: &str) -> bool {
    let openings = [
        format!("abbrev pub {name} : Type 0"),
        format!("pub record {name} : Type 0 where"),
    ];
    libraries().iter().any(|krate| {
        files(&root().join("crates").join(krate).join("specs"), ".antt")
            .iter()
            .any(|path| {
                read(path)
                    .lines()
                    .any(|line| openings.iter().any(|opening| line == opening))
            })
    })
}

/// Every claim of a crate's specs/, as its crate and its name: a closed type whose comment is a sentence. What a value of a table or
/// a list is made of is a closed type too, and its comment starts in lower case.
pub fn claims() -> Vec<(String, String)> {
    let mut found = Vec::new();
    for krate in libraries() {
        for path in files(&root().join("crates").join(&krate).join("specs"), ".antt") {
            let text = read(&path);
            let lines: Vec<_> = text.lines().collect();
            for (at, line) in lines.iter().enumerate() {
                let closed = line
                    .strip_prefix("abbrev pub ")
                    .and_then(|rest| rest.strip_suffix(" : Type 0"))
                    .or_else(|| {
                        line.strip_prefix("pub record ")
                            .and_then(|rest| rest.strip_suffix(" : Type 0 where"))
                    });
                let Some(name) = closed.filter(|name| !name.contains(' ')) else {
                    continue;
                };
                let first = lines[..at]
                    .iter()
                    .rev()
                    .take_while(|line| line.starts_with("-- "))
                    .last();
                if first.is_some_and(|line| line[3..].starts_with(char::is_uppercase)) {
                    found.push((krate.clone(), name.to_owned()));
                }
            }
        }
    }
    found
}

/// Whether a wrong build changes a definition and not the code.
pub fn changes_definition(krate: &str, label: &str) -> bool {
    let path = root()
        .join("crates")
        .join(krate)
        .join("must-fail")
        .join(format!("{label}.edit"));
    read(&path)
        .lines()
        .any(|line| line.starts_with("file: specs/"))
}
