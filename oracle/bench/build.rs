//! Compiles what is read by hand in C, and links the static library of the walks over bits.
use std::env;
use std::path::PathBuf;
use std::process::Command;

/// The C files, without their ending.
const C_FILES: [&str; 2] = ["scene", "walk"];
const HEADERS: [&str; 2] = ["scene.h", "../../include/gateway.h"];

/// No option for a machine: the code is for any x86-64, as that of the other sides.
const OPTIONS: &str = "-std=c11 -O3 -Wall -Wextra -Werror -I../../include -c";

/// The folder of the static libraries.
const FOLDER: &str = "GATEWAY_LIBRARY_DIR";
const WALKS: &str = "bit_walks";

fn main() {
    let folder = PathBuf::from(env::var_os("OUT_DIR").expect("the folder of what is built"));
    println!("cargo::rustc-link-search=native={}", folder.display());
    for name in C_FILES {
        let source = format!("{name}.c");
        let object = folder.join(format!("{name}.o"));
        let options = OPTIONS.split(' ');
        run(Command::new("cc")
            .args(options)
            .arg(&source)
            .arg("-o")
            .arg(&object));
        run(Command::new("ar")
            .arg("crs")
            .arg(folder.join(format!("lib{name}.a")))
            .arg(&object));
        println!("cargo::rustc-link-lib=static={name}");
        println!("cargo::rerun-if-changed={source}");
    }
    for header in HEADERS {
        println!("cargo::rerun-if-changed={header}");
    }
    link_walks();
}

fn link_walks() {
    println!("cargo::rerun-if-env-changed={FOLDER}");
    let Ok(folder) = env::var(FOLDER) else {
        println!("cargo::error={FOLDER} must name the folder of lib{WALKS}.a");
        return;
    };
    println!("cargo::rerun-if-changed={folder}/lib{WALKS}.a");
    println!("cargo::rustc-link-search=native={folder}");
    println!("cargo::rustc-link-lib=static={WALKS}");
}

fn run(command: &mut Command) {
    let status = command.status().expect("a C compiler and an archiver");
    assert!(status.success(), "{command:?}: {status}");
}
