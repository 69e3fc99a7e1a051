//! Links the proved archive if the environment says where it is; without it the program is built
//! all the same and has no comparison.

use std::env;
use std::fs;
use std::path::Path;

fn main() {
    println!("cargo:rustc-check-cfg=cfg(proved, proved_lent, proved_own)");
    println!("cargo:rerun-if-changed=build.rs");
    println!("cargo:rerun-if-env-changed=POTUCHLAN_LIB");
    match env::var("POTUCHLAN_LIB") {
        Ok(folder) if !folder.is_empty() => link(&folder),
        _ => {}
    }
}

/// Links `libplugin.a` of this folder, which is taken from here if it is not absolute.
fn link(folder: &str) {
    let archive = Path::new(folder).join("libplugin.a");
    let archive = fs::canonicalize(&archive)
        .unwrap_or_else(|error| panic!("POTUCHLAN_LIB: {}: {error}", archive.display()));
    let folder = archive.parent().expect("a file stands in a folder");
    println!("cargo:rerun-if-changed={}", archive.display());
    println!("cargo:rustc-link-search=native={}", folder.display());
    println!("cargo:rustc-link-lib=static=plugin");
    println!("cargo:rustc-cfg=proved");
    let content = fs::read(&archive).expect("the archive can be read");
    let lent = names(&content, "potuchlan_search");
    let own = names(&content, "potuchlan_search_here");
    assert!(lent || own, "POTUCHLAN_LIB: the archive has no search");
    if lent {
        println!("cargo:rustc-cfg=proved_lent");
    }
    if own {
        println!("cargo:rustc-cfg=proved_own");
    }
}

/// Whether the archive's tables of names hold exactly this one.
fn names(content: &[u8], name: &str) -> bool {
    let wanted = format!("\0{name}\0");
    content
        .windows(wanted.len())
        .any(|part| part == wanted.as_bytes())
}
