//! Finds the archives of the crates c_api_c and dispatch_c, links them, and tells the tests
//! their paths.

use std::env;
use std::path::{Path, PathBuf};
use std::process::exit;

/// Names other archives by their whole paths, as PATH names folders.
const VARIABLE: &str = "LEGGING_ARCHIVE";

/// What they are without it, in target/staticlib.
const ARCHIVES: [&str; 2] = ["libc_api.a", "libdispatch.a"];

fn main() {
    println!("cargo:rerun-if-env-changed={VARIABLE}");
    let archives = archives();
    archives.iter().for_each(|archive| link(archive));
    // The tests of the hosts in C link the same ones.
    if let Ok(paths) = env::join_paths(&archives) {
        println!("cargo:rustc-env=ARCHIVES={}", paths.display());
    }
}

fn archives() -> Vec<PathBuf> {
    match env::var_os(VARIABLE) {
        Some(paths) => env::split_paths(&paths).collect(),
        None => {
            let package = env::var_os("CARGO_MANIFEST_DIR").unwrap_or_default();
            let folder = Path::new(&package).join("../../target/staticlib");
            ARCHIVES.map(|name| folder.join(name)).into()
        }
    }
}

fn link(archive: &Path) {
    println!("cargo:rerun-if-changed={}", archive.display());
    if !archive.is_file() {
        eprintln!(
            "the archive is not there: {}\n\
             copy it from what `rt lib` writes in the folder crates/c_api_c or\n\
             crates/dispatch_c, out/libc_api_c.a or out/libdispatch_c.a, or name others by\n\
             the variable {VARIABLE}",
            archive.display()
        );
        exit(1);
    }
    let Some((folder, name)) = folder_and_name(archive) else {
        eprintln!(
            "expected {VARIABLE} to name files libNAME.a, found {}",
            archive.display()
        );
        exit(1);
    };
    println!("cargo:rustc-link-search=native={folder}");
    println!("cargo:rustc-link-lib=static={name}");
}

/// The folder of an archive and the name by which a linker asks for it.
fn folder_and_name(archive: &Path) -> Option<(String, String)> {
    let whole = archive.canonicalize().ok()?;
    let folder = whole.parent()?.to_str()?.to_string();
    let file = whole.file_name()?.to_str()?;
    let name = file.strip_prefix("lib")?.strip_suffix(".a")?;
    Some((folder, name.to_string()))
}
