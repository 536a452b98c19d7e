//! Lets tests and examples find a shared library where the build found it.

fn main() {
    let told = |name: &str| std::env::var(name).unwrap_or_default();
    if told("DEP_RIO9_KIND") == "dylib" {
        println!("cargo:rustc-link-arg=-Wl,-rpath,{}", told("DEP_RIO9_LIB_DIR"));
    }
}
