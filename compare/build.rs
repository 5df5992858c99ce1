//! Links the search rules written in C, and their limit, compiled by $CLANG (clang) at -O3. The crate `outlines` links the library itself.

use std::env;
use std::path::Path;
use std::process::Command;

/// The first line that a program prints with `--version`.
fn version_of(program: &str) -> String {
    let output = Command::new(program).arg("--version").output();
    let text = output.unwrap_or_else(|why| panic!("{program} does not run: {why}")).stdout;
    String::from_utf8_lossy(&text).lines().next().unwrap_or("").to_string()
}

fn run(program: &str, arguments: &[&str]) {
    let status = Command::new(program).args(arguments).status();
    assert!(status.is_ok_and(|s| s.success()), "{program} {arguments:?} failed");
}

/// The rules in C and their limit, one object each, with the same flags.
fn compile_rules() {
    println!("cargo:rerun-if-changed=c");
    println!("cargo:rerun-if-env-changed=CLANG");
    let out = env::var("OUT_DIR").expect("cargo sets OUT_DIR");
    let clang = env::var("CLANG").unwrap_or_else(|_| "clang".to_string());
    let in_out = |name: &str| Path::new(&out).join(name).display().to_string();
    let (archive, objects) = (in_out("librules.a"), [in_out("rules.o"), in_out("limit.o")]);
    for (source, object) in ["c/rules.c", "c/limit.c"].into_iter().zip(&objects) {
        run(&clang, &["-std=c11", "-O3", "-Wall", "-Wextra", "-fPIC", "-c", source, "-o", object]);
    }
    run("ar", &["rcs", &archive, &objects[0], &objects[1]]);
    println!("cargo:rustc-link-search=native={out}");
    println!("cargo:rustc-link-lib=static=rules");
    println!("cargo:rustc-env=BUILT_WITH_CLANG={}", version_of(&clang));
}

fn main() {
    println!("cargo:rerun-if-changed=build.rs");
    compile_rules();
    let rustc = env::var("RUSTC").expect("cargo sets RUSTC");
    println!("cargo:rustc-env=BUILT_WITH_RUSTC={}", version_of(&rustc));
}
