//! Says where the library is: in the directory that `ART_MAP_LIB_DIR` names, or where the system
//! finds libraries.

fn main() {
    println!("cargo:rerun-if-env-changed=ART_MAP_LIB_DIR");
    if let Ok(directory) = std::env::var("ART_MAP_LIB_DIR") {
        println!("cargo:rustc-link-search=native={directory}");
        println!("cargo:rustc-link-lib=static=art_map");
    } else {
        println!("cargo:rustc-link-lib=art_map");
    }
}
