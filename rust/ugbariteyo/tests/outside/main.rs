//! A program outside the repository uses the crate: by its path in the repository, and a copy of it that is told where
//! the library lies.

use std::env;
use std::fs;
use std::io;
use std::path::{Path, PathBuf};
use std::process::{self, Command, Output};

const CRATE: &str = env!("CARGO_MANIFEST_DIR");
const LIB_DIR: &str = "UGBARITEYO_LIB_DIR";
const PRINTED: &str = "\
sent Rope 7 of 96 bytes, SecurityHeader first
copied, body [0, 0, 0, 0, 0, 0]
written again: true
record of 104 bytes, section of 96
stopped at record 1, byte 104: wrong or cut head, or cut section
refused with 1 at 20: input ends before the section does
";

/// A directory that is removed in the end.
struct Outside(PathBuf);

impl Outside {
    fn new(name: &str) -> io::Result<Self> {
        let directory = env::temp_dir().join(format!("ugbariteyo-{name}-{}", process::id()));
        fs::create_dir(&directory)?;
        Ok(Self(directory))
    }

    /// Runs the program, which takes the crate from `path`; the library lies in `library` where that is said.
    fn run(&self, path: &Path, library: Option<&Path>) -> io::Result<Output> {
        let package = "[package]\nname = \"outside\"\nedition = \"2021\"\n";
        let manifest = format!("{package}[dependencies]\nugbariteyo = {{ path = {path:?} }}\n");
        fs::create_dir_all(self.0.join("src"))?;
        fs::write(self.0.join("Cargo.toml"), manifest)?;
        fs::write(self.0.join("src/main.rs"), include_str!("program.rs"))?;
        let mut cargo = Command::new(env!("CARGO"));
        cargo.args(["run", "--quiet", "--offline"]).current_dir(&self.0);
        cargo.env("CARGO_TARGET_DIR", self.0.join("target")).env_remove(LIB_DIR);
        cargo.envs(library.map(|library| (LIB_DIR, library))).output()
    }
}

impl Drop for Outside {
    fn drop(&mut self) {
        // what cannot be removed lies among the temporary files
        let _ = fs::remove_dir_all(&self.0);
    }
}

fn printed(run: &Output) -> &str {
    let stderr = String::from_utf8_lossy(&run.stderr);
    assert!(run.status.success(), "{stderr}");
    str::from_utf8(&run.stdout).expect("the program prints text")
}

#[test]
fn by_its_path_in_the_repository() -> io::Result<()> {
    let library = env::var_os(LIB_DIR).map(PathBuf::from);
    let run = Outside::new("by-path")?.run(Path::new(CRATE), library.as_deref())?;
    assert_eq!(printed(&run), PRINTED);
    Ok(())
}

#[test]
fn a_copy_that_is_told_where_the_library_lies() -> io::Result<()> {
    let outside = Outside::new("copy")?;
    let copy = outside.0.join("ugbariteyo");
    fs::create_dir(&copy)?;
    let taken = ["Cargo.toml", "build.rs", "src"].map(|name| Path::new(CRATE).join(name));
    assert!(Command::new("cp").arg("-r").args(taken).arg(&copy).status()?.success());
    let library = env::var_os(LIB_DIR).map_or(Path::new(CRATE).join("../../target/lib"), PathBuf::from);
    assert_eq!(printed(&outside.run(&copy, Some(&library))?), PRINTED);

    let untold = outside.run(&copy, None)?;
    let why = String::from_utf8_lossy(&untold.stderr);
    assert!(!untold.status.success() && why.contains("set UGBARITEYO_LIB_DIR"), "{why}");
    let nowhere = outside.run(&copy, Some(&outside.0))?;
    let why = String::from_utf8_lossy(&nowhere.stderr);
    assert!(!nowhere.status.success() && why.contains("there is no libugbariteyo.a in"), "{why}");
    Ok(())
}
