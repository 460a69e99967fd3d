//! The folder `runs/`, file by file.

use crate::story::{beside, recording, Ranking};
use crate::{readme, runs};

pub struct File {
    pub name: String,
    pub bytes: Vec<u8>,
}

/// Everything that stands in the folder.
pub fn files() -> Vec<File> {
    let file = |name: &str, bytes: Vec<u8>| File { name: name.to_string(), bytes };
    let mut files = Vec::new();
    for run in runs() {
        files.push(file(&format!("{}.bin", run.name), run.input.clone()));
        files.push(file(&format!("{}.txt", run.name), run.listing().into_bytes()));
    }
    files.push(file("story.run", recording(Ranking::Right).write().into_bytes()));
    files.push(file("story-wrong.run", recording(Ranking::Wrong).write().into_bytes()));
    files.push(file("story-beside.txt", beside().into_bytes()));
    files.push(file("README.md", readme().into_bytes()));
    files
}
