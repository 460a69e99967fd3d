//! Compiles the C that names are measured beside.

use std::env;
use std::path::PathBuf;
use std::process::Command;

const SOURCE: &str = "c/sha256.c";

fn main() {
    let out = PathBuf::from(env::var_os("OUT_DIR").expect("cargo says where files are put"));
    let (object, archive) = (out.join("sha256.o"), out.join("libbench_sha256.a"));
    println!("cargo:rerun-if-changed={SOURCE}");
    run(Command::new("gcc").args(["-O3", "-c", SOURCE, "-o"]).arg(&object));
    run(Command::new("ar").arg("crs").arg(&archive).arg(&object));
    println!("cargo:rustc-link-search=native={}", out.display());
    println!("cargo:rustc-link-lib=static=bench_sha256");
}

fn run(command: &mut Command) {
    let program = command.get_program().to_string_lossy().into_owned();
    match command.status() {
        Ok(status) if status.success() => {}
        Ok(status) => panic!("{program} on host/bench/{SOURCE}: {status}"),
        Err(error) => panic!("the benchmark's C (host/bench/{SOURCE}) needs {program}, which can't be run: {error}"),
    }
}
