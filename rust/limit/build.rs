//! Compiles the plain C program, every `.c` of `plain/`, into a static archive and links it. The compiler is the one that
//! `LIMIT_CC` names, else `clang` if it is on the path, else `cc`. The proved library is linked by the wrapper's build script.

use std::{
    env, fs,
    path::{Path, PathBuf},
    process::{Command, Output},
};

/// Nothing here is for one machine.
const FLAGS: [&str; 6] = ["-std=c11", "-O3", "-march=x86-64", "-mtune=generic", "-Wall", "-Wextra"];

fn main() {
    println!("cargo:rerun-if-env-changed=LIMIT_CC");
    println!("cargo:rerun-if-changed=plain");
    let out = PathBuf::from(env::var_os("OUT_DIR").expect("cargo names a folder for what is built"));
    let compiler = compiler();
    let objects: Vec<PathBuf> = sources().iter().map(|source| compile(&compiler, source, &out)).collect();
    let archive = out.join("libplain.a");
    if archive.exists() {
        fs::remove_file(&archive).expect("the old archive can be removed");
    }
    run(Command::new("ar").arg("crs").arg(&archive).args(&objects));
    println!("cargo:rustc-link-search=native={}", out.display());
    println!("cargo:rustc-link-lib=static=plain");
    println!("cargo:rustc-env=LIMIT_COMPILER={}", version(&compiler));
    println!("cargo:rustc-env=LIMIT_FLAGS={}", FLAGS.join(" "));
}

fn compiler() -> String {
    match env::var("LIMIT_CC") {
        Ok(name) if !name.is_empty() => name,
        _ if Command::new("clang")
            .arg("--version")
            .output()
            .is_ok_and(|said| said.status.success()) =>
        {
            "clang".into()
        }
        _ => "cc".into(),
    }
}

/// The first line of what the compiler says of itself.
fn version(compiler: &str) -> String {
    let said = run(Command::new(compiler).arg("--version"));
    String::from_utf8_lossy(&said.stdout)
        .lines()
        .next()
        .unwrap_or(compiler)
        .to_string()
}

/// The C files, in the order of their names.
fn sources() -> Vec<PathBuf> {
    let folder = fs::read_dir("plain").expect("the folder plain/ is there");
    let mut sources: Vec<PathBuf> = folder.map(|entry| entry.expect("an entry of plain/").path()).collect();
    sources.retain(|path| path.extension().is_some_and(|ending| ending == "c"));
    sources.sort();
    assert!(!sources.is_empty(), "plain/ has no C file");
    sources
}

/// The object file of a C file. What the compiler warns of is passed on.
fn compile(compiler: &str, source: &Path, out: &Path) -> PathBuf {
    let object = out.join(source.with_extension("o").file_name().expect("a C file has a name"));
    let said = run(Command::new(compiler)
        .args(FLAGS)
        .arg("-Iplain")
        .arg("-c")
        .arg(source)
        .arg("-o")
        .arg(&object));
    for line in String::from_utf8_lossy(&said.stderr).lines() {
        println!("cargo:warning={line}");
    }
    object
}

/// What the command said; it has to succeed.
fn run(command: &mut Command) -> Output {
    let said = command
        .output()
        .unwrap_or_else(|error| panic!("{command:?} can't be run: {error}"));
    assert!(
        said.status.success(),
        "{command:?} failed:\n{}",
        String::from_utf8_lossy(&said.stderr)
    );
    said
}
