//! Gives the shared library its name for the loader, where there is such a name: programs that were
//! linked with a version go on with those of the same first two numbers.

fn main() {
    println!("cargo:rerun-if-changed=build.rs");
    if std::env::var("CARGO_CFG_TARGET_OS").as_deref() == Ok("linux") {
        let number = |of| std::env::var(of).unwrap_or_default();
        let (major, minor) = (number("CARGO_PKG_VERSION_MAJOR"), number("CARGO_PKG_VERSION_MINOR"));
        println!("cargo:rustc-cdylib-link-arg=-Wl,-soname,libdephungo_c.so.{major}.{minor}");
    }
}
