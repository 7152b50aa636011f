//! Gives the differential tests and the benchmark the proved library: linked, when GRITGARLAND_LIB_DIR names the directory of
//! libgritgarland.a, or, the tests alone, behind a pipe, when GRITGARLAND_SERVE is the command that serves it.

fn main() {
    println!("cargo:rustc-check-cfg=cfg(library)");
    println!("cargo:rustc-check-cfg=cfg(linked)");
    println!("cargo:rerun-if-changed=build.rs");
    println!("cargo:rerun-if-env-changed=GRITGARLAND_LIB_DIR");
    println!("cargo:rerun-if-env-changed=GRITGARLAND_SERVE");
    if let Ok(directory) = std::env::var("GRITGARLAND_LIB_DIR") {
        println!("cargo:rerun-if-changed={directory}/libgritgarland.a");
        println!("cargo:rustc-link-search=native={directory}");
        println!("cargo:rustc-link-lib=static=gritgarland");
        println!("cargo:rustc-cfg=linked");
        println!("cargo:rustc-cfg=library");
    } else if std::env::var_os("GRITGARLAND_SERVE").is_some() {
        println!("cargo:rustc-cfg=library");
    }
}
