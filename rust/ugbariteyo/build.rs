//! Links the proved library, `libugbariteyo.a`: from the directory in `UGBARITEYO_LIB_DIR`, else from the
//! repository's `target/lib`, where the script `archive` writes it. That is run where the archive is not there yet;
//! proving takes minutes, so the terminal says what is being done.

use std::env;
use std::fs::File;
use std::io::{self, BufRead, BufReader, Write};
use std::path::{Path, PathBuf};
use std::process::{exit, Command, ExitStatus};

const ARCHIVE: &str = "libugbariteyo.a";
const LIB_DIR: &str = "UGBARITEYO_LIB_DIR";

fn main() {
    println!("cargo:rerun-if-env-changed={LIB_DIR}");
    match library_dir() {
        Ok(dir) => {
            println!("cargo:rerun-if-changed={}", dir.join(ARCHIVE).display());
            println!("cargo:rustc-link-search=native={}", dir.display());
            println!("cargo:rustc-link-lib=static=ugbariteyo");
        }
        Err(why) => {
            eprintln!("ugbariteyo: {why}");
            exit(1);
        }
    }
}

/// The directory that holds the archive.
fn library_dir() -> Result<PathBuf, String> {
    let target = |what: &str| env::var(format!("CARGO_CFG_TARGET_{what}")).unwrap_or_default();
    if target("ARCH") != "x86_64" || target("OS") != "linux" {
        return Err("the proved library is compiled for x86-64 Linux only".into());
    }
    if let Some(dir) = env::var_os(LIB_DIR) {
        let dir = PathBuf::from(dir);
        return if dir.join(ARCHIVE).is_file() {
            Ok(dir)
        } else {
            Err(format!("there is no {ARCHIVE} in {}, which {LIB_DIR} names", dir.display()))
        };
    }
    let here = env::var_os("CARGO_MANIFEST_DIR").expect("cargo sets CARGO_MANIFEST_DIR");
    let root = Path::new(&here).join("../..");
    let dir = root.join("target/lib");
    if !dir.join(ARCHIVE).is_file() {
        build_library(&root)?;
    }
    Ok(dir)
}

/// Proves the library and writes the archive.
fn build_library(root: &Path) -> Result<(), String> {
    if !root.join("crates/ugbariteyo").is_dir() {
        return Err(format!(
            "this crate does not lie in its repository: set {LIB_DIR} to where {ARCHIVE} lies"
        ));
    }
    let advice = format!("run `./archive` in the repository, or set {LIB_DIR} to where {ARCHIVE} lies");
    say("proving and compiling the library, which is done once and takes minutes");
    match run_archive(root) {
        Ok(status) if status.success() => Ok(()),
        Ok(status) => Err(format!("`archive` failed ({status}): {advice}")),
        Err(e) => Err(format!("`archive` did not run ({e}): {advice}")),
    }
}

/// Runs `archive` and says each line that it prints.
fn run_archive(root: &Path) -> io::Result<ExitStatus> {
    let (output, its_end) = io::pipe()?;
    let mut archive =
        Command::new(root.join("archive")).stdout(its_end.try_clone()?).stderr(its_end).spawn()?;
    for line in BufReader::new(output).lines() {
        say(&line?);
    }
    archive.wait()
}

/// Prints a line on the terminal, where there is one: cargo shows what a build script prints only where it failed, or
/// with -vv.
fn say(line: &str) {
    eprintln!("ugbariteyo: {line}");
    if let Ok(mut terminal) = File::options().write(true).open("/dev/tty") {
        // over cargo's progress bar, which it draws again; a terminal that is gone is no reason to fail
        let _ = writeln!(terminal, "\r\x1b[Kugbariteyo: {line}");
    }
}
