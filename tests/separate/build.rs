//! Links the static library of the folder that RUSHHOPPER_LIB names, for the programs that compare with it.

use std::env;

fn main() {
    println!("cargo:rerun-if-env-changed=RUSHHOPPER_LIB");
    if env::var_os("CARGO_FEATURE_LIBRARY").is_none() {
        return;
    }
    let folder = env::var("RUSHHOPPER_LIB").expect("RUSHHOPPER_LIB: the folder of librushhopper.a");
    println!("cargo:rerun-if-changed={folder}/librushhopper.a");
    println!("cargo:rustc-link-search=native={folder}");
    println!("cargo:rustc-link-lib=static:-bundle=rushhopper");
}
