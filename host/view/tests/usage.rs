//! The program prints its usage if it is asked for, and if its arguments are wrong.

#[path = "../../oracle/tests/common/usage.rs"]
mod usage;

#[test]
fn the_usage_is_printed() {
    usage::on_request(env!("CARGO_BIN_EXE_view"));
    usage::on_error(env!("CARGO_BIN_EXE_view"), &["--wrong"]);
}
