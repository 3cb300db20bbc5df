//! Looks for SQLite's library. Where it is installed the benchmark links it and is built with `cfg(sqlite)`; otherwise it goes without.
use std::path::Path;

const FOLDERS: [&str; 6] = ["/usr/lib/x86_64-linux-gnu", "/lib/x86_64-linux-gnu", "/usr/lib64", "/usr/lib", "/usr/local/lib", "/opt/sqlite/lib"];
const FILES: [&str; 3] = ["libsqlite3.so", "libsqlite3.so.0", "libsqlite3.a"];

fn main() {
    println!("cargo:rerun-if-changed=build.rs");
    println!("cargo:rustc-check-cfg=cfg(sqlite)");
    let places = FOLDERS.iter().flat_map(|folder| FILES.map(|file| Path::new(folder).join(file)));
    if let Some(found) = places.into_iter().find(|place| place.is_file()) {
        // By its path: a system without the development package has no file of the plain name.
        println!("cargo:rustc-link-arg={}", found.display());
        println!("cargo:rustc-cfg=sqlite");
    }
}
