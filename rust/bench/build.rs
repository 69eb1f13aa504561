//! Compiles the C that the benchmark links: the tuned calls, and the loops of calls made from C.

use std::env;
use std::path::{Path, PathBuf};
use std::process::{exit, Command};

const SOURCES: [&str; 11] = [
    "tuned/read.c",
    "tuned/copy.c",
    "tuned/check.c",
    "tuned/write.c",
    "tuned/image.c",
    "tuned/day.c",
    "tuned/portions.c",
    "tuned/value.c",
    "c/agree.c",
    "c/loops.c",
    "c/samples.c",
];
/// Loops over blocks stay as they are written; gcc would make `rep stos` of them.
const FLAGS: [&str; 7] = [
    "-std=gnu11",
    "-O3",
    "-march=x86-64",
    "-fno-tree-loop-distribute-patterns",
    "-Wall",
    "-Wextra",
    "-Werror",
];
const INCLUDE: &str = "../../include";

fn main() {
    for watched in ["tuned", "c", INCLUDE] {
        println!("cargo:rerun-if-changed={watched}");
    }
    let out = PathBuf::from(env::var_os("OUT_DIR").expect("cargo sets OUT_DIR"));
    let objects = SOURCES.map(|source| compile(source, &out));
    run(Command::new("ar").arg("crs").arg(out.join("libbenchc.a")).args(objects));
    println!("cargo:rustc-link-search=native={}", out.display());
    println!("cargo:rustc-link-lib=static=benchc");
}

fn compile(source: &str, out: &Path) -> PathBuf {
    let object = out.join(source.replace('/', "-")).with_extension("o");
    let includes = ["-I", INCLUDE, "-I", "tuned"];
    run(Command::new("gcc").args(FLAGS).args(includes).args(["-c", source, "-o"]).arg(&object));
    object
}

/// Runs a command, which has to succeed.
fn run(command: &mut Command) {
    match command.status() {
        Ok(status) if status.success() => {}
        Ok(status) => fail(&format!("{command:?} ended with {status}")),
        Err(error) => fail(&format!("{command:?} could not be started: {error}")),
    }
}

fn fail(why: &str) -> ! {
    eprintln!("bench: {why}");
    exit(1);
}
