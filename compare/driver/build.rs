//! Links the static library whose folder CABLEFINCH_ARCHIVE names.

fn main() {
    println!("cargo:rerun-if-env-changed=CABLEFINCH_ARCHIVE");
    let folder = std::env::var("CABLEFINCH_ARCHIVE").expect("CABLEFINCH_ARCHIVE names a folder");
    println!("cargo:rerun-if-changed={folder}/libface.a");
    println!("cargo:rustc-link-search=native={folder}");
    println!("cargo:rustc-link-lib=static=face");
}
