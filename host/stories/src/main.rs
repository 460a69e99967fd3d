//! Writes the folder of stored runs.

use std::path::Path;
use std::process::ExitCode;
use std::{fs, io};

const USAGE: &str = "\
usage: stories DIR
  DIR     the folder that the stored runs and the story are written to; it is made if it isn't there
  --help  prints this";

fn main() -> ExitCode {
    oracle::help::answer(USAGE);
    let arguments: Vec<String> = std::env::args().skip(1).collect();
    let [folder] = &arguments[..] else {
        eprintln!("{USAGE}");
        return ExitCode::from(2);
    };
    match write(Path::new(folder)) {
        Ok(count) => {
            println!("{count} files");
            ExitCode::SUCCESS
        }
        Err(error) => {
            eprintln!("stories: {folder}: {error}");
            ExitCode::FAILURE
        }
    }
}

fn write(folder: &Path) -> io::Result<usize> {
    fs::create_dir_all(folder)?;
    let files = stories::files();
    for file in &files {
        fs::write(folder.join(&file.name), &file.bytes)?;
    }
    Ok(files.len())
}
