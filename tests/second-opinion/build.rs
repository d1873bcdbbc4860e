//! Links `replay`'s static library where REPLAY_DIR names its directory.

fn main() {
    println!("cargo:rerun-if-env-changed=REPLAY_DIR");
    println!("cargo:rustc-check-cfg=cfg(replay)");
    if let Ok(directory) = std::env::var("REPLAY_DIR") {
        println!("cargo:rerun-if-changed={directory}/libreplay.a");
        println!("cargo:rustc-link-search=native={directory}");
        println!("cargo:rustc-link-lib=static=replay");
        println!("cargo:rustc-cfg=replay");
    }
}
