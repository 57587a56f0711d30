//! Links the engine's static library: libwenditsal.a in the folder that WENDITSAL_LIB names, else in the repository's
//! target/staticlib, where tools/static_library puts it.
use std::path::PathBuf;
use std::process::ExitCode;

fn main() -> ExitCode {
    println!("cargo::rerun-if-env-changed=WENDITSAL_LIB");
    let folder = match std::env::var_os("WENDITSAL_LIB") {
        Some(folder) => PathBuf::from(folder),
        None => PathBuf::from(env!("CARGO_MANIFEST_DIR")).join("../../target/staticlib"),
    };
    let library = folder.join("libwenditsal.a");
    println!("cargo::rerun-if-changed={}", library.display());
    if !library.is_file() {
        println!("cargo::error=no {}: run tools/static_library, or name its folder in WENDITSAL_LIB", library.display());
        return ExitCode::FAILURE;
    }
    println!("cargo::rustc-link-search=native={}", folder.display());
    println!("cargo::rustc-link-lib=static=wenditsal");
    ExitCode::SUCCESS
}
