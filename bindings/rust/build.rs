// Links the library. TMS5220_LIB names the folder of libtms5220.a; without it that is where `./build` puts it.
use std::{env, path::PathBuf};

fn main() {
    println!("cargo:rerun-if-env-changed=TMS5220_LIB");
    let folder = match env::var_os("TMS5220_LIB") {
        Some(folder) => PathBuf::from(folder),
        None => PathBuf::from(env::var_os("CARGO_MANIFEST_DIR").unwrap()).join("../../target/tms5220/lib"),
    };
    let archive = folder.join("libtms5220.a");
    if !archive.exists() {
        panic!("{} is not there: run ./build, or set TMS5220_LIB", archive.display());
    }
    println!("cargo:rerun-if-changed={}", archive.display());
    println!("cargo:rustc-link-search=native={}", folder.display());
    println!("cargo:rustc-link-lib=static=tms5220");
}
