//! Tells cargo where libcagzhomul is.

use std::env;
use std::path::PathBuf;

const VARIABLE: &str = "CAGZHOMUL_LIBRARY_DIR";

/// The kind and the file of the library in this folder: the archive, if there is one.
fn library_in(folder: &str) -> Result<(&'static str, PathBuf), String> {
    [("static", "libcagzhomul.a"), ("dylib", "libcagzhomul.so")]
        .into_iter()
        .find_map(|(kind, name)| {
            Some((kind, PathBuf::from(folder).join(name).canonicalize().ok()?))
        })
        .ok_or(format!(
            "{VARIABLE} is {folder}, which has neither libcagzhomul.a nor libcagzhomul.so: \
             make them by `tools/build_library {folder}`"
        ))
}

fn main() {
    println!("cargo::rerun-if-env-changed={VARIABLE}");
    let library = env::var(VARIABLE)
        .map_err(|_| {
            format!(
                "{VARIABLE} is not set: make the library by `tools/build_library DIR`, \
                 and set {VARIABLE} to DIR"
            )
        })
        .and_then(|folder| library_in(&folder));
    match library {
        Ok((kind, file)) => {
            println!("cargo::rerun-if-changed={}", file.display());
            if let Some(folder) = file.parent() {
                println!("cargo::rustc-link-search=native={}", folder.display());
            }
            println!("cargo::rustc-link-lib={kind}=cagzhomul");
        }
        Err(what) => println!("cargo::error={what}"),
    }
}
