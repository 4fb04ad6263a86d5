//! Makes the crate's source tree in the build folder: the published files, byte
//! for byte, and beside them our stand-ins for the files that are missing.
//!
//! The folder with the published files is given by PUBLISHED_SRC (a relative
//! one counts from the repository root), else it is ../shared/docs/src.
//!
//! One alteration is made, and only in the build copy: three files get a module
//! line appended, so that a module of ours can reach their private fields.

use std::path::{Path, PathBuf};
use std::process::{exit, Command};
use std::{env, fs};

/// The line that is appended, and the files that get it. The module itself is
/// stand-ins/engine/NAME/access.rs.
const APPENDED: &str = "\nmod access; // appended by build.rs\n";
const APPENDED_TO: [&str; 3] = [
    "src/engine/control.rs",
    "src/engine/ruleset.rs",
    "src/engine/transaction.rs",
];

fn main() {
    let package = PathBuf::from(env::var("CARGO_MANIFEST_DIR").unwrap());
    let out = PathBuf::from(env::var("OUT_DIR").unwrap());
    let oracle = package.join("..");
    let given = env::var("PUBLISHED_SRC")
        .ok()
        .filter(|given| !given.is_empty());
    let folder = given.unwrap_or_else(|| "../shared/docs/src".into());
    let folder = oracle.join("..").join(folder);
    tell_cargo(&package, &folder);

    check_published(&oracle, &folder);
    let copy = fresh(out.join("published"));
    let listed = listed(&oracle);
    for path in &listed {
        write(&copy.join(path), &read(&folder.join(path)));
    }
    // Again, on the bytes that are used from here on.
    check_published(&oracle, &copy);

    let tree = fresh(out.join("tree"));
    for path in &listed {
        plant(&copy, &tree, path);
    }
    add_stand_ins(&package.join("stand-ins"), &tree);
}

/// What makes a new build necessary.
fn tell_cargo(package: &Path, folder: &Path) {
    println!("cargo:rerun-if-env-changed=PUBLISHED_SRC");
    println!("cargo:rerun-if-changed={}", folder.display());
    for own in [
        "build.rs",
        "stand-ins",
        "../published.sha256",
        "../check-published",
    ] {
        println!("cargo:rerun-if-changed={}", package.join(own).display());
    }
}

/// Ends the build unless the folder holds exactly the published files.
fn check_published(oracle: &Path, folder: &Path) {
    let check = Command::new(oracle.join("check-published"))
        .arg(folder)
        .status();
    match check {
        Ok(status) if status.success() => {}
        Ok(_) => exit(1),
        Err(error) => refuse(&format!("check-published can't be run: {error}")),
    }
}

/// The paths of the published files, as listed.
fn listed(oracle: &Path) -> Vec<String> {
    let list = read(&oracle.join("published.sha256"));
    let list = String::from_utf8(list).expect("published.sha256 is plain text");
    let path = |line: &str| line.split_once("  ").expect("sum and path").1.to_string();
    list.lines().map(path).collect()
}

/// Puts one published file into the tree, with the appended line where it has
/// one, and looks whether it stands there as published.
fn plant(copy: &Path, tree: &Path, path: &str) {
    let published = read(&copy.join(path));
    let appended = if APPENDED_TO.contains(&path) {
        APPENDED
    } else {
        ""
    };
    let place = tree.join(path.strip_prefix("src/").expect("all are below src"));
    let mut text = published.clone();
    text.extend_from_slice(appended.as_bytes());
    write(&place, &text);

    let planted = read(&place);
    let as_published = planted.len() == published.len() + appended.len()
        && planted.starts_with(&published)
        && planted.ends_with(appended.as_bytes());
    if !as_published {
        refuse(&format!("the build copy of {path} is not as published"));
    }
}

/// Copies our stand-ins into the tree. None may take a published file's place.
fn add_stand_ins(from: &Path, to: &Path) {
    for entry in fs::read_dir(from).expect("the stand-ins are there") {
        let entry = entry.expect("a stand-in can be listed").path();
        let place = to.join(entry.file_name().expect("an entry has a name"));
        if entry.is_dir() {
            add_stand_ins(&entry, &place);
        } else if place.exists() {
            refuse(&format!(
                "{} is in a published file's place",
                entry.display()
            ));
        } else {
            write(&place, &read(&entry));
        }
    }
}

/// An empty folder in place of what was there.
fn fresh(folder: PathBuf) -> PathBuf {
    if folder.exists() {
        fs::remove_dir_all(&folder).expect("the build folder can be cleared");
    }
    fs::create_dir_all(&folder).expect("the build folder can be made");
    folder
}

fn read(path: &Path) -> Vec<u8> {
    fs::read(path).unwrap_or_else(|error| refuse(&format!("{}: {error}", path.display())))
}

fn write(path: &Path, bytes: &[u8]) {
    let folder = path.parent().expect("a file has a folder");
    fs::create_dir_all(folder).expect("a build folder can be made");
    fs::write(path, bytes).unwrap_or_else(|error| refuse(&format!("{}: {error}", path.display())));
}

fn refuse(why: &str) -> ! {
    eprintln!("oracle: {why}; nothing is built");
    exit(1)
}
