//! Links libzhargutai.a: the one that the variable ZHARGUTAI_LIB_DIR names the folder of, else target/c of this repository (`make`).
fn main() {
    let built = concat!(env!("CARGO_MANIFEST_DIR"), "/../../target/c");
    let folder = std::env::var("ZHARGUTAI_LIB_DIR").unwrap_or_else(|_| built.to_string());
    println!("cargo:rustc-link-search=native={folder}");
    println!("cargo:rustc-link-lib=static=zhargutai");
    println!("cargo:rerun-if-env-changed=ZHARGUTAI_LIB_DIR");
    println!("cargo:rerun-if-changed={folder}/libzhargutai.a");
}
