//! Links the archive of the proved library, libmondzafeky.a. It is made by tools/archive, which proves the library first; this script never makes
//! it. `MONDZAFEKY_ARCHIVE_DIR` names, by its whole path, another folder to take it from.
use std::env;
use std::path::PathBuf;
use std::process::exit;

fn fail(message: String) -> ! {
    // Cargo shows what a failed build script writes here.
    eprintln!("{message}");
    exit(1)
}

fn main() {
    println!("cargo:rerun-if-changed=build.rs");
    println!("cargo:rerun-if-env-changed=MONDZAFEKY_ARCHIVE_DIR");
    let arch = env::var("CARGO_CFG_TARGET_ARCH").unwrap_or_default();
    let os = env::var("CARGO_CFG_TARGET_OS").unwrap_or_default();
    if arch != "x86_64" || os != "linux" {
        fail(format!("mondzafeky: the archive is compiled for x86-64 Linux; this build is for {arch} {os}"));
    }
    let folder = match env::var_os("MONDZAFEKY_ARCHIVE_DIR") {
        Some(named) => PathBuf::from(named),
        None => PathBuf::from(env::var_os("CARGO_MANIFEST_DIR").expect("cargo sets it")).join("../../target/archive"),
    };
    let archive = folder.join("libmondzafeky.a");
    println!("cargo:rerun-if-changed={}", archive.display());
    if !archive.is_file() {
        fail(format!(
            "mondzafeky: there is no archive at {}\nmake it at the repository's root by: tools/archive\n\
             or name the folder that holds libmondzafeky.a in MONDZAFEKY_ARCHIVE_DIR",
            archive.display()
        ));
    }
    println!("cargo:rustc-link-search=native={}", folder.display());
    println!("cargo:rustc-link-lib=static=mondzafeky");
}
