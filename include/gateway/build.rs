//! Links the static library, from the folder that an environment variable names.
use std::env;

const FOLDER: &str = "GATEWAY_LIBRARY_DIR";
const LIBRARY: &str = "gateway";

fn main() {
    println!("cargo::rerun-if-env-changed={FOLDER}");
    let Ok(folder) = env::var(FOLDER) else {
        println!("cargo::error={FOLDER} must name the folder of lib{LIBRARY}.a");
        return;
    };
    println!("cargo::rerun-if-changed={folder}/lib{LIBRARY}.a");
    println!("cargo::rustc-link-search=native={folder}");
    println!("cargo::rustc-link-lib=static={LIBRARY}");
}
