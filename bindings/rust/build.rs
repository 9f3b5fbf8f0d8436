//! Links libsmithy_bind_c.a of the folder SMITHY_BIND_LIB, which is that of crates/smithy_bind_c if left out, and the allocator
//! liblibc_c.a of the folder SMITHY_BIND_LIBC, which is the toolchain's if left out. `cargo check` and `cargo doc` need neither.
use std::env;
use std::path::{Path, PathBuf};
use std::process::Command;

fn main() {
    link(
        "smithy_bind_c",
        "SMITHY_BIND_LIB",
        built,
        "`rt lib` in crates/smithy_bind_c of the repository makes it",
    );
    link(
        "libc_c",
        "SMITHY_BIND_LIBC",
        allocator,
        "it is in the folder `c` of the toolchain, beside the page that `rt doc` names",
    );
}

// Links an archive of the folder that a variable names, or of the one where it stands else. What is missing is told here, and
// the linker refuses it.
fn link(name: &str, variable: &str, folder: fn() -> Option<PathBuf>, origin: &str) {
    println!("cargo:rerun-if-env-changed={variable}");
    let folder = env::var_os(variable).map(PathBuf::from).or_else(folder);
    let file = folder.unwrap_or_default().join(format!("lib{name}.a"));
    println!("cargo:rerun-if-changed={}", file.display());
    println!("cargo:rustc-link-lib=static={name}");
    match file.parent() {
        Some(found) if file.is_file() => {
            println!("cargo:rustc-link-search=native={}", found.display());
        }
        _ => println!(
            "cargo:warning={} is not there: {origin}; set {variable} to the folder that has it",
            file.display()
        ),
    }
}

// Where `rt lib` leaves the library.
fn built() -> Option<PathBuf> {
    let here = env::var_os("CARGO_MANIFEST_DIR")?;
    Some(Path::new(&here).join("../../crates/smithy_bind_c/out"))
}

// The folder `c` of the toolchain on the path.
fn allocator() -> Option<PathBuf> {
    let said = Command::new("rt").arg("doc").output().ok()?;
    let page = PathBuf::from(String::from_utf8(said.stdout).ok()?.trim());
    Some(page.parent()?.join("c"))
}
