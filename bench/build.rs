//! Links the archive that the variable ARCHIVE names (run.sh sets it), and builds again when it changes.
use std::path::Path;

fn main() {
    println!("cargo:rerun-if-env-changed=ARCHIVE");
    let archive =
        std::env::var("ARCHIVE").expect("ARCHIVE must name the library; bench/run.sh sets it");
    let path = Path::new(&archive);
    let name = path
        .file_stem()
        .and_then(|s| s.to_str())
        .and_then(|s| s.strip_prefix("lib"))
        .expect("ARCHIVE must be a path to libNAME.a");
    println!("cargo:rerun-if-changed={archive}");
    println!(
        "cargo:rustc-link-search=native={}",
        path.parent().unwrap().display()
    );
    println!("cargo:rustc-link-lib=static={name}");
}
