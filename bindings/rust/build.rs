//! Links the static library that `bindings/build.sh` makes. If it isn't found, a system's library is linked by name, so
//! that the crate is checked and documented without any.
use std::env;
use std::path::{Path, PathBuf};

fn main() {
    println!("cargo:rerun-if-env-changed=GRAPHQL_PARSER_LIB");
    let folder = match env::var_os("GRAPHQL_PARSER_LIB") {
        Some(folder) => PathBuf::from(folder),
        None => Path::new(env!("CARGO_MANIFEST_DIR")).join("../out"),
    };
    let archive = folder.join("libgraphql_parser.a");
    println!("cargo:rerun-if-changed={}", archive.display());
    if archive.is_file() {
        println!("cargo:rustc-link-search=native={}", folder.display());
        println!("cargo:rustc-link-lib=static=graphql_parser");
    } else {
        println!(
            "cargo:warning={} is missing: to link a program run bindings/build.sh, or set GRAPHQL_PARSER_LIB to the \
             folder of the library",
            archive.display()
        );
        println!("cargo:rustc-link-lib=dylib=graphql_parser");
    }
}
