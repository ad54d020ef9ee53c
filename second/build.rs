//! Hands the folder of the archive under test to the linker.

fn main() {
    println!("cargo:rerun-if-env-changed=SHEET_LIB_DIR");
    if let Ok(folder) = std::env::var("SHEET_LIB_DIR") {
        println!("cargo:rustc-link-search=native={folder}");
        println!("cargo:rerun-if-changed={folder}/libsheets.a");
    }
}
