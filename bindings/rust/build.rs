//! Finds the archive of the proved library and links it: the first of
//!
//! 1. libtockplover.a or libcapi.a in the folder that TOCKPLOVER_STATICLIB names,
//! 2. the repository's target/staticlib/libcapi.a, which `tools/build staticlib capi` writes,
//! 3. an installed libtockplover.a: where pkg-config says, then in /usr/local/lib and /usr/lib.
use std::env;
use std::fs;
use std::path::{Path, PathBuf};
use std::process::Command;
use std::time::SystemTime;

fn main() {
    for name in ["TOCKPLOVER_STATICLIB", "PKG_CONFIG_PATH"] {
        println!("cargo::rerun-if-env-changed={name}");
    }
    match find() {
        Ok((folder, name)) => {
            println!("cargo::rerun-if-changed={}", folder.join(format!("lib{name}.a")).display());
            println!("cargo::rustc-link-search=native={}", folder.display());
            println!("cargo::rustc-link-lib=static={name}");
        }
        Err(why) => println!("cargo::error={why}"),
    }
}

/// The folder of the archive and its name for the linker, or what to do where there is none.
fn find() -> Result<(PathBuf, &'static str), String> {
    if let Some(folder) = env::var_os("TOCKPLOVER_STATICLIB") {
        let why = format!("TOCKPLOVER_STATICLIB names {folder:?}, and no libtockplover.a or libcapi.a is there");
        return archive_in(Path::new(&folder), &["tockplover", "capi"]).ok_or(why);
    }
    repository().or_else(installed).ok_or_else(|| {
        "there is no libtockplover.a: run `tools/build staticlib capi` at the repository's root, or install it with `tockplover install`, \
         or name its folder in TOCKPLOVER_STATICLIB"
            .to_string()
    })
}

/// An archive of one of these names in a folder.
fn archive_in(folder: &Path, names: &[&'static str]) -> Option<(PathBuf, &'static str)> {
    let there = |name: &&str| folder.join(format!("lib{name}.a")).is_file();
    names.iter().copied().find(there).map(|name| (folder.to_path_buf(), name))
}

/// The repository's own archive, which is told where it is older than its sources.
fn repository() -> Option<(PathBuf, &'static str)> {
    let crate_folder = env::var_os("CARGO_MANIFEST_DIR").expect("cargo says where this crate is");
    let top = Path::new(&crate_folder).join("../..");
    let found = archive_in(&top.join("target/staticlib"), &["capi"])?;
    println!("cargo::rerun-if-changed={}", top.join("crates").display());
    if newest(&found.0.join("libcapi.a")) < newest(&top.join("crates")) {
        println!("cargo::warning=target/staticlib/libcapi.a is older than its sources: run `tools/build staticlib capi` at the repository's root");
    }
    Some(found)
}

/// When a file, or the last one of a folder, was changed; none for what cannot be looked at. What the prover keeps beside a crate's
/// sources, in out/, does not count, and a folder counts by its files alone.
fn newest(path: &Path) -> Option<SystemTime> {
    if path.is_file() {
        return fs::metadata(path).and_then(|about| about.modified()).ok();
    }
    let below = fs::read_dir(path).into_iter().flatten().flatten();
    let kept = below.filter(|entry| entry.file_name() != "out");
    kept.filter_map(|entry| newest(&entry.path())).max()
}

/// An installed archive.
fn installed() -> Option<(PathBuf, &'static str)> {
    let usual = ["/usr/local/lib", "/usr/lib"].map(PathBuf::from);
    pkg_config()
        .into_iter()
        .chain(usual)
        .find_map(|folder| archive_in(&folder, &["tockplover"]))
}

/// The folder that pkg-config names, where there is such a command and it knows the library.
fn pkg_config() -> Option<PathBuf> {
    let answer = Command::new("pkg-config").args(["--variable=libdir", "tockplover"]).output().ok()?;
    let folder = String::from_utf8(answer.stdout).ok()?;
    (answer.status.success() && !folder.trim().is_empty()).then(|| PathBuf::from(folder.trim()))
}
