//! Links the library's archive, found in `../target/staticlib` (or in `../crates/exports/out`, where the toolchain makes it, if it
//! is newer there) or where `REAMBODKIN_LIB` points, or says what is missing.

use std::{
    env, fs,
    path::{Path, PathBuf},
    time::SystemTime,
};

const NAMED: &str = "reambodkin";
const COPIED: &str = "exports";

fn main() {
    println!("cargo::rerun-if-changed=build.rs");
    println!("cargo::rerun-if-env-changed=REAMBODKIN_LIB");
    if env::var_os("CARGO_FEATURE_ARCHIVE").is_none() {
        return;
    }
    let given = env::var_os("REAMBODKIN_LIB").map(PathBuf::from);
    // The library's code is for x86-64; on another processor a folder must be named that has its functions.
    let other_processor = env::var("CARGO_CFG_TARGET_ARCH").as_deref() != Ok("x86_64");
    let foreign = other_processor && given.is_none();
    let toolchains = given.is_none().then(|| project("crates/exports/out"));
    let folder = given.unwrap_or_else(|| project("target/staticlib"));
    let places = places(&folder, toolchains);
    for (folder, name) in &places {
        println!("cargo::rerun-if-changed={}", file(folder, name).display());
    }
    match newest(&places).ok_or("is missing").and_then(|it| if foreign { Err("has x86-64 code") } else { Ok(it) }) {
        Err(what) => println!("cargo::error={} {what}; {}", file(&folder, NAMED).display(), way(other_processor)),
        Ok((folder, name)) => {
            println!("cargo::rustc-link-search=native={}", folder.display());
            println!("cargo::rustc-link-lib=static:-bundle={name}");
        }
    }
}

/// A folder of the project.
fn project(name: &str) -> PathBuf {
    let here = PathBuf::from(env::var_os("CARGO_MANIFEST_DIR").expect("cargo names the package's folder"));
    here.parent().unwrap_or(&here).join(name)
}

/// Where an archive may be: by the project's name, or by that of the toolchain, from whose it is copied.
fn places(folder: &Path, toolchains: Option<PathBuf>) -> Vec<(PathBuf, &'static str)> {
    let mut places = vec![(folder.to_path_buf(), NAMED), (folder.to_path_buf(), COPIED)];
    places.extend(toolchains.map(|folder| (folder, COPIED)));
    places
}

/// The archive that is linked: the one by the project's name, or another, where only that one is there or it was made again.
fn newest(places: &[(PathBuf, &'static str)]) -> Option<(PathBuf, &'static str)> {
    let mut found = None;
    for (folder, name) in places {
        let time = made(folder, name);
        if time > found.as_ref().and_then(|(time, _)| *time) {
            found = Some((time, (folder.clone(), *name)));
        }
    }
    found.map(|(_, place)| place)
}

fn file(folder: &Path, name: &str) -> PathBuf {
    folder.join(format!("lib{name}.a"))
}

fn made(folder: &Path, name: &str) -> Option<SystemTime> {
    fs::metadata(file(folder, name)).and_then(|data| data.modified()).ok()
}

/// How to come by one.
fn way(other_processor: bool) -> &'static str {
    if other_processor {
        "in the folder of the project run ./archive, then second/bridge/build, and let REAMBODKIN_LIB name target/bridge"
    } else {
        "in the folder of the project run ./archive"
    }
}
