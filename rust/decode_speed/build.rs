//! Builds the proved `ads1299_codes::code` by itself: the product's crate with that one function exported and not a line
//! else changed, proved anew and compiled by the kit as the product is. It is private there, and the library has it inlined.

use std::path::{Path, PathBuf};
use std::process::Command;
use std::{env, fs};

/// The crate, and the one that its proofs need.
const CRATES: [&str; 2] = ["cases", "ads1299_codes"];

const PRIVATE: &str = "\nfn code(";

const EXPORTED: &str = "\n#[unsafe(no_mangle)]\npub extern \"C\" fn code(";

/// Copies a crate's folder, but for what earlier checks kept in its out/.
fn copy_folder(from: &Path, to: &Path) {
    fs::create_dir_all(to).unwrap();
    for entry in fs::read_dir(from).unwrap() {
        let entry = entry.unwrap();
        if entry.file_name() == "out" {
            continue;
        }
        let target = to.join(entry.file_name());
        if entry.file_type().unwrap().is_dir() {
            copy_folder(&entry.path(), &target);
        } else {
            fs::copy(entry.path(), &target).unwrap();
        }
    }
}

fn export_code(copy: &Path) {
    let file = copy.join("crates/ads1299_codes/src/lib.rt");
    let source = fs::read_to_string(&file).unwrap();
    assert_eq!(source.matches(PRIVATE).count(), 1, "fn code");
    fs::write(&file, source.replace(PRIVATE, EXPORTED)).unwrap();
}

fn main() {
    let top = PathBuf::from(env::var("CARGO_MANIFEST_DIR").unwrap()).join("../..");
    // Outside the repository, in which rt ci takes a file of Rattle for one that is left unproved.
    let copy = env::temp_dir().join("rimevelvet-decode-speed");
    let _ = fs::remove_dir_all(&copy);
    for name in CRATES {
        let folder = top.join("crates").join(name);
        println!("cargo:rerun-if-changed={}", folder.display());
        copy_folder(&folder, &copy.join("crates").join(name));
    }
    let list = "cases:\nads1299_codes staticlib: cases\n";
    fs::write(copy.join("crates.txt"), list).unwrap();
    export_code(&copy);
    let folder = copy.join("crates/ads1299_codes");
    let built = Command::new("rt")
        .arg("lib")
        .current_dir(&folder)
        .output()
        .expect("rt is not on the PATH");
    assert!(
        built.status.success(),
        "{}{}",
        String::from_utf8_lossy(&built.stdout),
        String::from_utf8_lossy(&built.stderr)
    );
    let out = folder.join("out");
    let archive = out.join("libads1299_codes.a");
    println!("cargo:rerun-if-changed={}", archive.display());
    println!("cargo:rustc-link-search=native={}", out.display());
    println!("cargo:rustc-link-lib=static=ads1299_codes");
}
