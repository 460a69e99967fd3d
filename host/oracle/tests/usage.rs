//! The programs print their usage if it is asked for, and if their arguments are wrong.

#[path = "common/usage.rs"]
mod usage;

#[test]
fn the_usage_is_printed() {
    usage::on_request(env!("CARGO_BIN_EXE_run"));
    usage::on_error(env!("CARGO_BIN_EXE_run"), &["--wrong"]);
    usage::on_request(env!("CARGO_BIN_EXE_lent"));
}
