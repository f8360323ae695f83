//! Writes `log.txt` beside the `plan.txt` and `ends.txt` of each folder named.
//!
//! The log is the second dispatcher's, so that it can judge the proved program.

use dispatcher::run_log;
use std::io::{Error, ErrorKind};
use std::path::{Path, PathBuf};
use std::{env, fs};

fn text_of(path: PathBuf) -> Result<Vec<u8>, Error> {
    match fs::read(path) {
        Err(error) if error.kind() == ErrorKind::NotFound => Ok(Vec::new()),
        read => read,
    }
}

fn main() -> Result<(), Error> {
    for argument in env::args_os().skip(1) {
        let folder = Path::new(&argument);
        let plan = text_of(folder.join("plan.txt"))?;
        let ends = text_of(folder.join("ends.txt"))?;
        fs::write(folder.join("log.txt"), run_log(&plan, &ends))?;
    }
    Ok(())
}
