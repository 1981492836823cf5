//! Tells cargo where librhset.a is: in the folder that the variable RHSET_LIBRARY names.

fn main() {
    println!("cargo:rerun-if-env-changed=RHSET_LIBRARY");
    if let Ok(folder) = std::env::var("RHSET_LIBRARY") {
        println!("cargo:rustc-link-search=native={folder}");
    }
    println!("cargo:rustc-link-lib=static=rhset");
}
