//! Links what guides the runs, libFuzzer, into the one program that is guided. oracle/guided names its words for the linker.
fn main() {
    println!("cargo:rerun-if-env-changed=GUIDED_LINKED");
    for word in std::env::var("GUIDED_LINKED").unwrap_or_default().split_whitespace() {
        println!("cargo:rustc-link-arg-bin=guided={word}");
    }
    // what neither call reaches is left out, and so are its counters
    println!("cargo:rustc-link-arg-bins=-Wl,-z,start-stop-gc");
}
