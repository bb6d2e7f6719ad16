//! Says where the proved library stands: in the folder that `CLUMARIEF_LIB` names, else where `tools/dist` puts it.

use std::env;
use std::path::PathBuf;

fn main() {
    println!("cargo:rerun-if-changed=build.rs");
    println!("cargo:rerun-if-env-changed=CLUMARIEF_LIB");
    let package =
        PathBuf::from(env::var_os("CARGO_MANIFEST_DIR").expect("cargo sets CARGO_MANIFEST_DIR"));
    let folder =
        env::var_os("CLUMARIEF_LIB").map_or(package.join("../../target/dist/lib"), PathBuf::from);
    let library = folder.join("libclumarief.a");
    assert!(
        library.is_file(),
        "{} is not there: run tools/dist in the repository, or name the folder in CLUMARIEF_LIB",
        library.display()
    );
    println!("cargo:rerun-if-changed={}", library.display());
    println!("cargo:rustc-link-search=native={}", folder.display());
    println!("cargo:rustc-link-lib=static=clumarief");
}
