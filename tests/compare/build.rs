//! Links the engine's static library if WENDITSAL_LIB names the folder that holds libwenditsal.a. Without it only replay
//! programs can be compared.
fn main() {
    println!("cargo::rustc-check-cfg=cfg(linked)");
    println!("cargo::rerun-if-env-changed=WENDITSAL_LIB");
    let Ok(folder) = std::env::var("WENDITSAL_LIB") else { return };
    println!("cargo::rerun-if-changed={folder}/libwenditsal.a");
    println!("cargo::rustc-link-search=native={folder}");
    println!("cargo::rustc-link-lib=static=wenditsal");
    println!("cargo::rustc-cfg=linked");
}
