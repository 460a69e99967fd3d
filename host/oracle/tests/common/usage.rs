//! When every program of this workspace prints its usage, and where. Tests of other crates have this file too.

use std::path::Path;
use std::process::Command;

/// `--help` and `-h`, also behind another argument: the usage, and nothing else happens.
pub fn on_request(program: &str) {
    for arguments in [&["--help"][..], &["-h"], &["run", "--help"]] {
        let (code, out, err) = run(program, arguments);
        assert_eq!((code, &*err), (Some(0), ""), "{program} {arguments:?}: {out}");
        assert!(out.starts_with(&beginning(program)), "{program} {arguments:?}: {out}");
        assert!(out.contains("\n  --help "), "{program} {arguments:?}: {out}");
    }
}

/// Arguments that can't be read: the usage as an error.
pub fn on_error(program: &str, arguments: &[&str]) {
    let (code, out, err) = run(program, arguments);
    assert!(matches!(code, Some(1 | 2)) && out.is_empty(), "{program} {arguments:?}: {code:?} {out}{err}");
    assert!(err.contains(&beginning(program)), "{program} {arguments:?}: {err}");
}

/// How the usage begins.
fn beginning(program: &str) -> String {
    let name = Path::new(program).file_stem().and_then(|name| name.to_str()).expect("the program's name");
    format!("usage: {name} ")
}

/// Exit code, standard output, standard error.
fn run(program: &str, arguments: &[&str]) -> (Option<i32>, String, String) {
    let output = Command::new(program).args(arguments).output().expect("the program starts");
    let text = |bytes: Vec<u8>| String::from_utf8(bytes).expect("text");
    (output.status.code(), text(output.stdout), text(output.stderr))
}
