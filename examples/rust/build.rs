//! Compiles `forward.c` by the system's compiler, and reads its sizes from `forward.h`. FORWARD names the folder of
//! both, if it is not that of this file, and CC the compiler.

use std::path::Path;
use std::process::Command;
use std::{env, fs};

fn run(program: &str, arguments: &[&str]) {
    let status = Command::new(program).args(arguments).status();
    assert!(status.is_ok_and(|status| status.success()), "{program} fails");
}

/// The constant that the header defines, as a line of Rust.
fn constant(header: &str, name: &str) -> String {
    let start = format!("#define FORWARD_{name} ");
    let line = header.lines().find_map(|line| line.strip_prefix(&start)).expect("a header of `--name forward`");
    format!("pub const {name}: usize = {};\n", line.trim_end_matches("ULL"))
}

fn main() {
    let folder = env::var("FORWARD").unwrap_or_else(|_| env::var("CARGO_MANIFEST_DIR").unwrap());
    let out = env::var("OUT_DIR").unwrap();
    let (source, header) = (format!("{folder}/forward.c"), format!("{folder}/forward.h"));
    let (object, library) = (format!("{out}/forward.o"), format!("{out}/libforward.a"));
    let compiler = env::var("CC").unwrap_or_else(|_| "cc".to_string());
    run(&compiler, &["-O3", "-fPIC", "-c", &source, "-o", &object]);
    run("ar", &["rcs", &library, &object]);
    let header_text = fs::read_to_string(&header).expect("forward.h");
    let sizes: String = ["SIZE", "WORDS", "WORK", "MODULUS"].iter().map(|name| constant(&header_text, name)).collect();
    fs::write(Path::new(&out).join("sizes.rs"), sizes).unwrap();
    println!("cargo:rustc-link-search=native={out}");
    println!("cargo:rustc-link-lib=static=forward");
    for name in [&source, &header] {
        println!("cargo:rerun-if-changed={name}");
    }
    println!("cargo:rerun-if-env-changed=FORWARD");
}
