//! Says where the library is: NIGBARU_ARCHIVE, or crates/nigbaru_c/out/libnigbaru_c.a of this repository, and
//! NIGBARU_LIBC, or the toolchain's liblibc_c.a, which `rt doc` finds.
use std::env;
use std::path::{Path, PathBuf};
use std::process::Command;

fn link(archive: &Path) {
    let file = archive.file_stem().unwrap().to_str().unwrap();
    println!("cargo:rerun-if-changed={}", archive.display());
    println!("cargo:rustc-link-search=native={}", archive.parent().unwrap().display());
    let name = file.strip_prefix("lib");
    println!("cargo:rustc-link-lib=static={}", name.expect("the linker wants an archive to be named libNAME.a"));
}

fn of_toolchain() -> PathBuf {
    let said = Command::new("rt")
        .arg("doc")
        .output()
        .expect("rt isn't on the path: set NIGBARU_LIBC to the toolchain's liblibc_c.a");
    Path::new(String::from_utf8(said.stdout).unwrap().trim()).parent().unwrap().join("c/liblibc_c.a")
}

fn main() {
    for name in ["NIGBARU_ARCHIVE", "NIGBARU_LIBC"] {
        println!("cargo:rerun-if-env-changed={}", name);
    }
    let here = PathBuf::from(env::var("CARGO_MANIFEST_DIR").unwrap());
    link(
        &env::var("NIGBARU_ARCHIVE")
            .map(PathBuf::from)
            .unwrap_or_else(|_| here.join("../../crates/nigbaru_c/out/libnigbaru_c.a")),
    );
    link(&env::var("NIGBARU_LIBC").map(PathBuf::from).unwrap_or_else(|_| of_toolchain()));
}
