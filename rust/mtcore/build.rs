//! Links the archive of the proved core, `libmtcore.a`.
//!
//! It is looked for in the folder that MTCORE_ARCHIVE names, and failing that in the repository's
//! crates/mtcore/out, where `rt lib` in crates/mtcore writes it.

use std::env;
use std::path::PathBuf;

const IN_REPOSITORY: &str = "../../crates/mtcore/out";

fn main() {
    println!("cargo:rerun-if-env-changed=MTCORE_ARCHIVE");
    let folder = match env::var_os("MTCORE_ARCHIVE") {
        Some(folder) => PathBuf::from(folder),
        None => {
            let manifest = env::var_os("CARGO_MANIFEST_DIR").expect("cargo names the manifest's folder");
            PathBuf::from(manifest).join(IN_REPOSITORY)
        }
    };
    let archive = folder.join("libmtcore.a");
    println!("cargo:rerun-if-changed={}", archive.display());
    if !archive.exists() {
        // Checking and documenting need no archive; only linking does.
        println!("cargo:warning=libmtcore.a not found: run `rt lib` in crates/mtcore, or set MTCORE_ARCHIVE");
    }
    println!("cargo:rustc-link-search=native={}", folder.display());
    println!("cargo:rustc-link-lib=static=mtcore");
}
