//! The jobs of the repository's folder `jobs`.
#![allow(dead_code)]
use kixombu::text::make;
use kixombu::{Job, JobFile, Sizes};
use std::path::{Path, PathBuf};

pub fn folder() -> PathBuf {
    Path::new(env!("CARGO_MANIFEST_DIR")).join("../../jobs")
}

/// The names of all jobs.
pub fn names() -> Vec<String> {
    let entries = std::fs::read_dir(folder()).expect("the folder jobs");
    let paths = entries.map(|entry| entry.unwrap().path());
    let jobs = paths.filter(|path| path.extension().is_some_and(|extension| extension == "job"));
    let mut names: Vec<String> = jobs.map(|path| path.file_stem().unwrap().to_str().unwrap().to_string()).collect();
    names.sort();
    assert!(names.len() >= 12, "jobs are missing: {names:?}");
    names
}

pub fn read(name: &str, extension: &str) -> Vec<u8> {
    let path = folder().join(format!("{name}.{extension}"));
    std::fs::read(&path).unwrap_or_else(|error| panic!("{}: {error}", path.display()))
}

/// The job of a text, opened with what runjob lends.
pub fn open(text: &str) -> Job {
    let file = JobFile::read(&make(text).unwrap().file).unwrap();
    Job::open(&file.opening, Sizes::RUNJOB).unwrap()
}
