//! Links the archives that `rt lib` writes in crates/capi and in crates/capi_ads7953.

use std::env;
use std::path::PathBuf;

fn main() {
    let given = env::var("RIMEVELVET_LIB").map(PathBuf::from);
    let crates = PathBuf::from(env::var("CARGO_MANIFEST_DIR").unwrap()).join("../../crates");
    println!("cargo:rerun-if-env-changed=RIMEVELVET_LIB");
    for archive in ["capi", "capi_ads7953"] {
        let folder = match &given {
            Ok(folder) => folder.clone(),
            Err(_) => crates.join(archive).join("out"),
        };
        println!("cargo:rustc-link-search=native={}", folder.display());
        println!(
            "cargo:rerun-if-changed={}",
            folder.join(format!("lib{archive}.a")).display()
        );
        println!("cargo:rustc-link-lib=static={archive}");
    }
}
