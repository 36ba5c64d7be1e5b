//! Gives the shared library its name, so that a program that was linked by the library's path finds it
//! in other folders too.

fn main() {
    println!("cargo:rerun-if-changed=build.rs");
    if std::env::var("CARGO_CFG_TARGET_OS").as_deref() == Ok("linux") {
        println!("cargo:rustc-cdylib-link-arg=-Wl,-soname,libdeodarsieve_c.so");
    }
}
