//! Links the proved archive: `target/staticlib/libmukhadero.a` of the repository, or the one in the directory that the
//! environment variable `MUKHADERO_LIB_DIR` names. With `MUKHADERO_LINK=dylib` a `libmukhadero.so` there is linked instead, to be
//! found again when the program runs.

use std::env;
use std::path::PathBuf;

fn main() {
    println!("cargo:rerun-if-env-changed=MUKHADERO_LIB_DIR");
    let directory = match env::var_os("MUKHADERO_LIB_DIR") {
        Some(directory) => PathBuf::from(directory),
        None => PathBuf::from(env::var_os("CARGO_MANIFEST_DIR").unwrap()).join("../target/staticlib"),
    };
    println!("cargo:rerun-if-env-changed=MUKHADERO_LINK");
    let (kind, file) = match env::var("MUKHADERO_LINK").as_deref() {
        Ok("dylib") => ("dylib", "libmukhadero.so"),
        _ => ("static", "libmukhadero.a"),
    };
    let library = directory.join(file);
    // a shared library may change under a program that is built already
    if kind == "static" {
        println!("cargo:rerun-if-changed={}", library.display());
    }
    let Ok(library) = library.canonicalize() else {
        panic!(
            "{} is not there: run `tools/build mukhadero` in the root of the repository, or set MUKHADERO_LIB_DIR to the \
             directory that holds {file}",
            library.display()
        );
    };
    println!("cargo:rustc-link-search=native={}", library.parent().unwrap().display());
    println!("cargo:rustc-link-lib={kind}=mukhadero");
}
