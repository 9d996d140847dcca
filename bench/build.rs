// Links the proved library and the C support that it calls. `bench/run` says where they are.
use std::env;

fn folder(name: &str) -> String {
    println!("cargo:rerun-if-env-changed={name}");
    env::var(name).unwrap_or_else(|_| panic!("{name} is not set: run bench/run"))
}

fn main() {
    let proved = folder("BENCH_PROVED");
    let support = folder("BENCH_SUPPORT");
    println!("cargo:rerun-if-changed={proved}/libexports.a");
    println!("cargo:rustc-link-search=native={proved}");
    println!("cargo:rustc-link-search=native={support}");
    println!("cargo:rustc-link-lib=static=exports");
    println!("cargo:rustc-link-lib=static=libc_c");
    // `memory.rs` counts what is allocated.
    println!("cargo:rustc-link-arg=-Wl,--wrap=malloc");
}
