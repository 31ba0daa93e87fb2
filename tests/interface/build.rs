use std::env;
use std::path::Path;

fn main() {
    let root = Path::new(&env::var("CARGO_MANIFEST_DIR").unwrap()).join("../..");
    let folder = env::var("STARFILE_LIB_DIR").unwrap_or(root.join("target/staticlib").display().to_string());
    println!("cargo:rustc-link-search=native={folder}");
    println!("cargo:rerun-if-env-changed=STARFILE_LIB_DIR");
    for name in ["heatherplane", "starfile_tests"] {
        println!("cargo:rustc-link-lib=static={name}");
        println!("cargo:rerun-if-changed={folder}/lib{name}.a");
    }
}
