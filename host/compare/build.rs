//! Hands on the path of the proved static library, for the tests that link it to programs in C.

fn main() {
    println!("cargo:rerun-if-changed=build.rs");
    let library = std::env::var("DEP_TIVAGYESZ_LIBRARY").expect("the build script of the matcher gives it");
    println!("cargo:rustc-env=TIVAGYESZ_LIBRARY={library}");
}
