//! `steps` links the static library of the crate `full_day_c`, which `bench/run` puts here under its old name.
fn main() {
    println!("cargo::rustc-link-search=native={}/target", env!("CARGO_MANIFEST_DIR"));
    println!("cargo::rerun-if-changed=target/libfull_day.a");
}
