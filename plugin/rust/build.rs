//! Links the proved archive. Its folder is in the environment variable `POTUCHLAN_LIB`.
use std::env;
use std::path::Path;
use std::process::exit;

fn main() {
    println!("cargo:rerun-if-env-changed=POTUCHLAN_LIB");
    let Ok(folder) = env::var("POTUCHLAN_LIB") else {
        eprintln!("POTUCHLAN_LIB is not set: set it to the folder that has libplugin.a, which `plugin/build-archive` makes in target/staticlib");
        exit(1);
    };
    let folder = match Path::new(&folder).canonicalize() {
        Ok(folder) if folder.join("libplugin.a").is_file() => folder,
        _ => {
            eprintln!("POTUCHLAN_LIB is {folder}, and there is no libplugin.a in it (a relative path counts from the crate's folder)");
            exit(1);
        }
    };
    println!(
        "cargo:rerun-if-changed={}",
        folder.join("libplugin.a").display()
    );
    println!("cargo:rustc-link-search=native={}", folder.display());
    println!("cargo:rustc-link-lib=static=plugin");
}
