//! The option that every program of this workspace has. It stands here since each of their crates has this one.

/// Prints the usage and ends the program if it is asked for help; to be called before anything else.
pub fn answer(usage: &str) {
    if std::env::args_os().skip(1).any(|argument| argument == "--help" || argument == "-h") {
        println!("{usage}");
        std::process::exit(0);
    }
}
