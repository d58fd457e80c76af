//! What the build says where the archive is not there, or is not the newest: cargo is run on this package with folders
//! made for it.

use std::{
    env, fs,
    path::{Path, PathBuf},
    process::{Command, Output},
    time::{Duration, SystemTime},
};

const ARCHIVE: &str = "libreambodkin.a";
/// What the archive is copied from.
const COPIED: &str = "libexports.a";

/// An empty folder of a test's own.
fn folder(name: &str) -> PathBuf {
    let folder = Path::new(env!("CARGO_TARGET_TMPDIR")).join(name);
    let _ = fs::remove_dir_all(&folder);
    fs::create_dir_all(&folder).expect("a folder");
    folder
}

/// A file that was made so many seconds ago.
fn put(folder: &Path, name: &str, seconds: u64) {
    let file = fs::File::create(folder.join(name)).expect("a file");
    file.set_modified(SystemTime::now() - Duration::from_secs(seconds)).expect("its time");
}

/// Builds the package, as a library: nothing is linked.
fn cargo_build(folder: &Path) -> Command {
    let mut cargo = Command::new(env!("CARGO"));
    cargo.args(["build", "--locked", "--offline", "--lib"]).current_dir(env!("CARGO_MANIFEST_DIR"));
    cargo.env("CARGO_TARGET_DIR", folder.join("target"));
    cargo
}

/// The package is built with the archive in this folder.
fn build(folder: &Path) -> Output {
    cargo_build(folder).env("REAMBODKIN_LIB", folder).output().expect("cargo runs")
}

/// The name of the archive that the build links.
fn linked(folder: &Path) -> String {
    let mut cargo = cargo_build(folder);
    let output = cargo.arg("--message-format=json").env("REAMBODKIN_LIB", folder).output().expect("cargo runs");
    assert!(output.status.success(), "{}", String::from_utf8_lossy(&output.stderr));
    let messages = String::from_utf8_lossy(&output.stdout);
    let (_, behind) = messages.split_once("static:-bundle=").expect("an archive is linked");
    behind.chars().take_while(|letter| letter.is_ascii_lowercase()).collect()
}

/// The one line that names the archive, and what it says behind it.
fn said(folder: &Path) -> String {
    let output = build(folder);
    assert!(!output.status.success(), "the build does not fail");
    let errors = String::from_utf8_lossy(&output.stderr);
    let name = folder.join(ARCHIVE).display().to_string();
    let lines: Vec<&str> = errors.lines().filter(|line| line.starts_with("error") && line.contains(&name)).collect();
    let [line] = lines[..] else { panic!("not one line names {name}:\n{errors}") };
    let (_, behind) = line.split_once(&name).expect("its name");
    behind.trim().to_string()
}

fn is_said(folder: &Path, what: &str) {
    let said = said(folder);
    assert!(said.starts_with(what), "{said}");
    assert!(said.contains("./archive"), "{said}");
    if cfg!(not(target_arch = "x86_64")) {
        assert!(said.contains("second/bridge/build") && said.contains("REAMBODKIN_LIB"), "{said}");
    }
}

#[test]
fn a_missing_archive_is_named_with_what_makes_it() {
    is_said(&folder("missing"), "is missing;");
}

#[test]
fn the_newest_archive_is_linked() {
    let alone = folder("alone");
    put(&alone, ARCHIVE, 0);
    assert_eq!(linked(&alone), "reambodkin");
    let copied = folder("copied");
    put(&copied, COPIED, 20);
    put(&copied, ARCHIVE, 10);
    assert_eq!(linked(&copied), "reambodkin");
    // The toolchain has made the archive again, and it was not copied.
    let again = folder("again");
    put(&again, ARCHIVE, 20);
    put(&again, COPIED, 10);
    assert_eq!(linked(&again), "exports");
}

#[test]
fn the_archive_as_the_toolchain_names_it_is_enough() {
    let folder = folder("toolchain");
    put(&folder, COPIED, 0);
    assert_eq!(linked(&folder), "exports");
}

/// A project with this package alone, built with no folder named.
#[cfg(target_arch = "x86_64")]
fn linked_in_project(project: &Path) -> String {
    let here = Path::new(env!("CARGO_MANIFEST_DIR"));
    let rust = project.join("rust");
    fs::create_dir_all(rust.join("src")).expect("a folder");
    for name in ["Cargo.toml", "Cargo.lock", "build.rs", "README.md"] {
        fs::copy(here.join(name), rust.join(name)).expect("a copy");
    }
    fs::create_dir_all(rust.join("tests")).expect("a folder");
    fs::write(rust.join("tests/parcel.rs"), "").expect("the test that the manifest names");
    for entry in fs::read_dir(here.join("src")).expect("the sources") {
        let path = entry.expect("a source").path();
        fs::copy(&path, rust.join("src").join(path.file_name().expect("its name"))).expect("a copy");
    }
    let mut cargo = cargo_build(project);
    cargo.current_dir(&rust).env_remove("REAMBODKIN_LIB").arg("--message-format=json");
    let output = cargo.output().expect("cargo runs");
    assert!(output.status.success(), "{}", String::from_utf8_lossy(&output.stderr));
    let messages = String::from_utf8_lossy(&output.stdout).replace('\\', "/");
    let (_, paths) = messages.split_once("native=").expect("a folder is searched");
    let folder = project.display().to_string();
    paths.trim_start_matches(&folder).chars().take_while(|letter| *letter != '"').collect()
}

/// Where the toolchain has made the archive again beside its code, that one is linked.
#[cfg(target_arch = "x86_64")]
#[test]
fn the_toolchains_own_archive_is_linked_where_it_is_newer() {
    let project = folder("project");
    let (made, copied) = (project.join("crates/exports/out"), project.join("target/staticlib"));
    for folder in [&made, &copied] {
        fs::create_dir_all(folder).expect("a folder");
    }
    put(&made, COPIED, 30);
    assert_eq!(linked_in_project(&project), "/crates/exports/out");
    put(&copied, COPIED, 20);
    put(&copied, ARCHIVE, 20);
    assert_eq!(linked_in_project(&project), "/target/staticlib");
    put(&made, COPIED, 10);
    assert_eq!(linked_in_project(&project), "/crates/exports/out");
}

/// The project's own archive has code for another processor.
#[cfg(not(target_arch = "x86_64"))]
#[test]
fn a_folder_must_be_named_on_this_processor() {
    let folder = folder("unnamed");
    let output = cargo_build(&folder).env_remove("REAMBODKIN_LIB").output().expect("cargo runs");
    assert!(!output.status.success(), "the build does not fail");
    assert!(String::from_utf8_lossy(&output.stderr).contains("second/bridge/build"));
}
