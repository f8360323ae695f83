//! Folders of their own for tests.

use dispatcher::sample::program::{at_root, empty_folder, entries_below};
use std::fs;
use std::path::{Path, PathBuf};
use std::process::Command;

/// An empty folder. Each test names its own.
pub fn new_folder(name: &str) -> PathBuf {
    empty_folder(env!("CARGO_TARGET_TMPDIR"), name)
}

/// A folder with these files, each a name and its text.
pub fn folder_of(name: &str, files: &[(&str, &[u8])]) -> PathBuf {
    let folder = new_folder(name);
    put_files(&folder, files);
    folder
}

/// A folder with that plan alone.
pub fn plan_folder(name: &str, plan: &[u8]) -> PathBuf {
    folder_of(name, &[("plan.txt", plan)])
}

pub fn put_files(folder: &Path, files: &[(&str, &[u8])]) {
    for (file, text) in files {
        fs::write(folder.join(file), text).unwrap();
    }
}

/// A script that can be run, and the folders that lead to it.
///
/// Another process writes it. A file that is open here for writing is open too in a command that another thread
/// starts at that moment, and until that command runs the system refuses to run the file.
pub fn put_script(path: &Path, script: &str) {
    fs::create_dir_all(path.parent().unwrap()).unwrap();
    let line = "printf '#!/bin/sh\\n%s\\n' \"$1\" >\"$0\" && chmod 755 \"$0\"";
    let mut writer = Command::new("sh");
    let status = writer.args(["-c", line]).arg(path).arg(script).status();
    assert!(status.unwrap().success(), "{}", path.display());
}

/// A command of the repository, copied to the same place below the root by another process, as there.
pub fn copy_command(name: &str, root: &Path) {
    let mut copy = Command::new("cp");
    let status = copy.arg(at_root(name)).arg(root.join(name)).status();
    assert!(status.unwrap().success(), "{name}");
}

/// Puts the files of that folder of the repository into the folder of the same name below the root.
pub fn copy_files(folder: &str, root: &Path) {
    fs::create_dir_all(root.join(folder)).unwrap();
    for file in entries_below(&at_root(folder)) {
        let name = file.file_name().unwrap();
        fs::copy(&file, root.join(folder).join(name)).unwrap();
    }
}
