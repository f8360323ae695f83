//! Programs in C for x86-64, which call the static library: what builds and runs them, all of it the toolchain's own.

use std::path::{Path, PathBuf};
use std::process::Command;

const TARGET: &str = "x86_64-unknown-linux-gnu";

/// The toolchain's folder.
pub struct Kit {
    pub folder: PathBuf,
}

impl Kit {
    pub fn of(folder: PathBuf) -> Kit {
        Kit { folder }
    }

    fn toolchain(&self) -> PathBuf {
        self.folder.join("toolchain")
    }

    /// It has the header of the repository at that root, and the C headers that the toolchain lacks.
    pub fn compiler(&self, root: &Path) -> Command {
        let mut command = Command::new(self.toolchain().join("bin/clang"));
        command.args(["-target", TARGET, "-fPIE", "-nostdinc"]);
        command.arg("-I").arg(root.join("include"));
        command.arg("-isystem").arg(root.join("rust/c"));
        command
    }

    pub fn linker(&self, object: &Path, library: &Path, program: &Path) -> Command {
        let mut command = Command::new(self.folder.join("bin/rattle-link"));
        command.args(["--target", TARGET, "--toolchain"]);
        command.arg(self.toolchain()).arg("-o");
        command.args([program, object, library]);
        command
    }

    /// Runs such a program, under the emulator where the processor is another.
    pub fn runner(&self, program: &Path) -> Command {
        let [loader, libraries] = self.loader_and_libraries();
        let mut command = if cfg!(target_arch = "x86_64") {
            Command::new(loader)
        } else {
            let mut emulated = Command::new(self.emulator());
            // Fast string copies are slow when emulated, byte by byte: the C library takes others.
            emulated.args(["-cpu", "max,-erms"]).arg(loader);
            emulated
        };
        command.arg("--library-path").args([&libraries, program]);
        command
    }

    fn loader_and_libraries(&self) -> [PathBuf; 2] {
        ["lib/ld-linux-x86-64.so.2", "lib"].map(|name| self.toolchain().join(name))
    }

    fn emulator(&self) -> PathBuf {
        self.toolchain().join("bin/qemu-x86_64")
    }

    /// What runs a program.
    pub fn files(&self) -> Vec<PathBuf> {
        let mut files = self.loader_and_libraries().to_vec();
        if cfg!(not(target_arch = "x86_64")) {
            files.push(self.emulator());
        }
        files
    }
}
