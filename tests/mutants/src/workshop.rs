//! Builds mutants, in a folder of its own with a copy of the sources.

use crate::mutation::Mutation;
use crate::source::Source;
use std::fs;
use std::path::{Path, PathBuf};
use std::process::{Command, Stdio};

/// How a mutant is built: `Soon` costs the compiler least, `Fast` makes a program for all runs.
#[derive(Clone, Copy)]
pub enum Build {
    Soon,
    Fast,
}

impl Build {
    fn folder(self) -> &'static str {
        match self {
            Build::Soon => "soon",
            Build::Fast => "fast",
        }
    }

    fn level(self) -> &'static str {
        match self {
            Build::Soon => "-Copt-level=0",
            Build::Fast => "-Copt-level=2",
        }
    }
}

pub struct Workshop {
    folder: PathBuf,
}

impl Workshop {
    pub fn new(folder: PathBuf, sources: &[Source]) -> Result<Workshop, String> {
        let workshop = Workshop { folder };
        for build in [Build::Soon, Build::Fast] {
            fs::create_dir_all(workshop.folder.join(build.folder())).map_err(|error| error.to_string())?;
        }
        fs::create_dir_all(workshop.folder.join("src")).map_err(|error| error.to_string())?;
        for source in sources {
            workshop.write(&source.file, &source.text)?;
        }
        Ok(workshop)
    }

    fn write(&self, file: &str, text: &str) -> Result<(), String> {
        let path = self.folder.join("src").join(file);
        fs::write(&path, text).map_err(|error| format!("{}: {error}", path.display()))
    }

    /// The program with that change, or `None` if the compiler refuses it.
    pub fn mutant(&self, source: &Source, mutation: &Mutation, build: Build) -> Result<Option<PathBuf>, String> {
        self.write(&source.file, &mutation.text)?;
        let program = self.unchanged(build);
        self.write(&source.file, &source.text)?;
        Ok(program)
    }

    /// The program as the sources stand in the folder.
    pub fn unchanged(&self, build: Build) -> Option<PathBuf> {
        let out = self.folder.join(build.folder());
        let library = out.join("libsecond.rlib");
        let program = out.join("second");
        let built = self.compile(build, "lib.rs", &["--crate-type=rlib", "--crate-name=second"], &library)
            && self.compile(
                build,
                "main.rs",
                &["--crate-name=second_program", "--extern", &format!("second={}", library.display())],
                &program,
            );
        built.then_some(program)
    }

    /// The checks of the release profile in ../Cargo.toml are on, and what the compiler keeps makes the next build short.
    fn compile(&self, build: Build, root: &str, arguments: &[&str], to: &Path) -> bool {
        let kept = self.folder.join(build.folder()).join("kept");
        let status = Command::new("rustc")
            .args(["--edition=2021", "-Awarnings", "-Coverflow-checks=on", "-Cdebug-assertions=on", build.level()])
            .arg(format!("-Cincremental={}", kept.display()))
            .args(arguments)
            .arg("-o")
            .arg(to)
            .arg(self.folder.join("src").join(root))
            .stderr(Stdio::null())
            .status();
        status.is_ok_and(|status| status.success())
    }
}
