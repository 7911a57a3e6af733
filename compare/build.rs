//! Links the archive of the proved calls, and the benchmark's loops in C.

use std::env;
use std::path::{Path, PathBuf};
use std::process::Command;

fn run(command: &mut Command) {
    let done = command.status().unwrap_or_else(|e| panic!("{command:?}: {e}"));
    assert!(done.success(), "{command:?}: {done}");
}

/// Compiles a file of c/ and gives the object back.
fn compile(cc: &str, name: &str, object: &Path, words: &[&str]) -> PathBuf {
    let source = Path::new("c").join(name).with_extension("c");
    run(Command::new(cc).args(["-O3", "-fPIC", "-c"]).args(words).arg(source).arg("-o").arg(object));
    object.to_path_buf()
}

fn main() {
    let package = PathBuf::from(env::var_os("CARGO_MANIFEST_DIR").unwrap());
    let out = PathBuf::from(env::var_os("OUT_DIR").unwrap());

    let archive = package.join("../crates/host/out");
    let file = archive.join("libhost.a");
    assert!(file.exists(), "there is no crates/host/out/libhost.a: `rt lib` makes it in crates/host");
    println!("cargo:rerun-if-changed={}", file.display());
    println!("cargo:rustc-link-search=native={}", archive.display());
    println!("cargo:rustc-link-lib=static=host");

    println!("cargo:rerun-if-env-changed=CC");
    println!("cargo:rerun-if-changed=c");
    let cc = env::var("CC").unwrap_or_else(|_| "cc".into());
    let mut objects = vec![compile(&cc, "loops", &out.join("loops.o"), &[])];
    // Judge in C, once by each compiler that is there, so that both can be timed in one run.
    for cc in ["gcc", "clang"] {
        println!("cargo:rustc-check-cfg=cfg({cc})");
        if Command::new(cc).arg("--version").output().is_ok_and(|said| said.status.success()) {
            println!("cargo:rustc-cfg={cc}");
            let name = format!("-DJUDGE=judge_{cc}");
            objects.push(compile(cc, "judge", &out.join(format!("judge_{cc}.o")), &[&name]));
        }
    }
    run(Command::new("ar").arg("rcs").arg(out.join("libloops.a")).args(objects));
    println!("cargo:rustc-link-search=native={}", out.display());
    println!("cargo:rustc-link-lib=static=loops");
}
