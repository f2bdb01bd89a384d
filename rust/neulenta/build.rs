//! Links the archive that `tools/build exports` makes, or the one in the folder that NEULENTA_LIB
//! names: `libneulenta.a`, as it is installed, else `libexports.a`.

use std::env;
use std::path::PathBuf;

const FOLDER: &str = "NEULENTA_LIB";
const DEFAULT_FOLDER: &str = "../../target/staticlib";

fn main() {
    println!("cargo::rerun-if-env-changed={FOLDER}");
    let (folder, names): (PathBuf, &[&str]) =
        match env::var_os(FOLDER).filter(|folder| !folder.is_empty()) {
            Some(folder) => (folder.into(), &["neulenta", "exports"]),
            None => (DEFAULT_FOLDER.into(), &["exports"]),
        };
    let archive = |name: &&str| folder.join(format!("lib{name}.a"));
    match names.iter().find(|name| archive(name).is_file()) {
        Some(name) => {
            let folder = folder.canonicalize().expect("the archive's folder");
            println!("cargo::rerun-if-changed={}", archive(name).display());
            println!("cargo::rustc-link-search=native={}", folder.display());
            println!("cargo::rustc-link-lib=static={name}");
        }
        None => {
            let archives: Vec<_> =
                names.iter().map(|name| archive(name).display().to_string()).collect();
            println!(
                "cargo::error=no static library at {}; run `tools/build exports` in the \
                 repository or set {FOLDER} to the archive's folder, as an absolute path",
                archives.join(" or "),
            );
        }
    }
}
