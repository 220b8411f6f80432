//! What the build scripts of packages share that link an archive of proved code: `#[path = ".."] mod link;`.

use std::env;
use std::path::{Path, PathBuf};

/// Links lib`name`.a, which `rt lib` makes in the folder `name` of `crates`, and the heap calls that the toolchain brings along. A variable
/// names another folder of the archive.
pub fn archive(variable: &str, name: &str, crates: &str) {
    let usual = Path::new(env!("CARGO_MANIFEST_DIR")).join(crates).join(name).join("out");
    link(variable, name, || Some(usual), &format!("`rt lib` in crates/{name} makes it"));
    link("RATTLE_C", "libc_c", heap_of_toolchain, "it is in the folder c/ of the toolchain, which is found where `rt` on the path leads");
    println!("cargo:rerun-if-env-changed=PATH");
}

/// Links lib`name`.a, from the folder that the variable names or from the usual one.
fn link(variable: &str, name: &str, usual: impl FnOnce() -> Option<PathBuf>, advice: &str) {
    println!("cargo:rerun-if-env-changed={variable}");
    let Some(folder) = env::var_os(variable).map(PathBuf::from).or_else(usual) else {
        panic!("no folder of lib{name}.a: name it in {variable}; {advice}");
    };
    let archive = folder.join(format!("lib{name}.a"));
    if !archive.is_file() {
        panic!("{} is not there: {advice}, and {variable} names another folder", archive.display());
    }
    println!("cargo:rerun-if-changed={}", archive.display());
    println!("cargo:rustc-link-search=native={}", folder.display());
    println!("cargo:rustc-link-lib=static={name}");
}

/// The folder c/ of the toolchain whose command `rt` is on the path, perhaps as a link.
fn heap_of_toolchain() -> Option<PathBuf> {
    let path = env::var_os("PATH")?;
    let folders = env::split_paths(&path).filter_map(|folder| {
        let command = folder.join("rt").canonicalize().ok()?;
        Some(command.parent()?.parent()?.join("c"))
    });
    folders.into_iter().find(|folder| folder.join("liblibc_c.a").is_file())
}
