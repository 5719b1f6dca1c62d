//! Links the library below the folder SIMCORE, where `./simcore --library` has put it.

fn main() {
    println!("cargo:rerun-if-env-changed=SIMCORE");
    let prefix = std::env::var("SIMCORE").expect("SIMCORE names the folder of `./simcore --library`");
    println!("cargo:rerun-if-changed={prefix}/lib/libsimcore.a");
    println!("cargo:rustc-link-search=native={prefix}/lib");
    println!("cargo:rustc-link-lib=static=simcore");
}
