//! Links libtiedraw, from TIEDRAW_LIB_DIR or from where `make lib` puts it: the archive or, in a folder that has it
//! alone, the shared library, which the loader must then find as well.
use std::env;
use std::fmt::Display;
use std::path::{Path, PathBuf};

const VARIABLE: &str = "TIEDRAW_LIB_DIR";
const PACKAGE: &str = env!("CARGO_MANIFEST_DIR");

fn warn(text: impl Display) {
    println!("cargo:warning={text}");
}

/// A relative path is meant from the folder in which cargo was run. A build script sees that only by the shell's PWD,
/// which may be missing or stale: where it has no such folder and the package's has, that is taken. Which it is, is told.
fn resolved(named: &Path) -> PathBuf {
    if named.is_absolute() {
        return named.to_path_buf();
    }
    println!("cargo:rerun-if-env-changed=PWD");
    let run_from = env::var_os("PWD").map(PathBuf::from);
    let run_from = run_from.filter(|folder| folder.is_absolute());
    let package = Path::new(PACKAGE).join(named);
    let folder = match run_from.map(|folder| folder.join(named)) {
        Some(folder) if folder.is_dir() || !package.is_dir() => folder,
        _ => package,
    };
    warn(format_args!(
        "{VARIABLE} is relative and is taken for {}",
        folder.display()
    ));
    folder
}

/// The library's folder.
fn library_folder() -> PathBuf {
    println!("cargo:rerun-if-env-changed={VARIABLE}");
    match env::var_os(VARIABLE) {
        Some(named) if !named.is_empty() => return resolved(Path::new(&named)),
        Some(_) => warn(format_args!("{VARIABLE} is empty and counts as not set")),
        None => {}
    }
    Path::new(PACKAGE).join("../../target/lib")
}

fn main() {
    let folder = library_folder();
    let archive = folder.join("libtiedraw.a");
    let shared = folder.join("libtiedraw.so");
    let (kind, library) = match !archive.exists() && shared.exists() {
        true => ("dylib", shared),
        false => ("static", archive),
    };
    // No failure: `cargo check`, `cargo doc` and editors need no library, and without it a build fails by itself.
    if !library.exists() {
        warn(format_args!(
            "no libtiedraw.a or libtiedraw.so in {}: `make lib` builds them, or {VARIABLE} names their folder",
            folder.display()
        ));
    }
    println!("cargo:rerun-if-changed={}", library.display());
    println!("cargo:rustc-link-search=native={}", folder.display());
    println!("cargo:rustc-link-lib={kind}=tiedraw");
}
