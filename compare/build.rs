//! Links the proved judge, target/staticlib/libjudge.a, which `build-library` writes.
use std::{env, path::Path, process::exit};

fn main() {
    let home = env::var("CARGO_MANIFEST_DIR").expect("cargo sets CARGO_MANIFEST_DIR");
    let folder = env::var("SRF_JUDGE_LIB").unwrap_or(format!("{home}/../target/staticlib"));
    let library = Path::new(&folder).join("libjudge.a");
    if !library.is_file() {
        eprintln!(
            "{}: not found; `./build-library` writes it",
            library.display()
        );
        exit(1);
    }
    println!("cargo:rerun-if-env-changed=SRF_JUDGE_LIB");
    println!("cargo:rerun-if-changed={}", library.display());
    println!("cargo:rustc-link-search=native={folder}");
    println!("cargo:rustc-link-lib=static=judge");
}
