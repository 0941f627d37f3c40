//! Links the proved archive: of this repository, or from the folder that `MACAROOSH_ARCHIVE` names.

use std::env;
use std::path::PathBuf;

fn main() {
    println!("cargo:rerun-if-env-changed=MACAROOSH_ARCHIVE");
    let named = env::var_os("MACAROOSH_ARCHIVE").map(PathBuf::from);
    let for_x86_64 = env::var("CARGO_CFG_TARGET_ARCH").map_or(false, |arch| arch == "x86_64");
    if named.is_none() && !for_x86_64 {
        println!("cargo:warning=the archive is for x86-64; to build programs use tools/cargo, which builds for that");
    }
    let folder = named.unwrap_or_else(|| {
        let mut root = PathBuf::from(env::var_os("CARGO_MANIFEST_DIR").unwrap_or_default());
        root.pop();
        root.join("target/staticlib")
    });
    let archive = folder.join("libcapi.a");
    println!("cargo:rerun-if-changed={}", archive.display());
    if !archive.is_file() {
        eprintln!("There is no {}. Run 'tools/archive' in the repository first.", archive.display());
        std::process::exit(1);
    }
    println!("cargo:rustc-link-search=native={}", folder.display());
    println!("cargo:rustc-link-lib=static=capi");
}
