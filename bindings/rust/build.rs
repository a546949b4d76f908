//! Links the static library of the folder that RUSHHOPPER_LIB names.

use std::env;

fn main() {
    println!("cargo:rerun-if-env-changed=RUSHHOPPER_LIB");
    let folder = env::var("RUSHHOPPER_LIB").expect("set RUSHHOPPER_LIB to the folder of librushhopper.a");
    println!("cargo:rerun-if-changed={folder}/librushhopper.a");
    println!("cargo:rustc-link-search=native={folder}");
    println!("cargo:rustc-link-lib=static=rushhopper");
}
