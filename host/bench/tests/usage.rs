//! The programs print their usage if it is asked for, and if their arguments are wrong.

#[path = "../../oracle/tests/common/usage.rs"]
mod usage;

#[test]
fn the_usage_is_printed() {
    usage::on_request(env!("CARGO_BIN_EXE_bench"));
    usage::on_error(env!("CARGO_BIN_EXE_bench"), &["--section", "wrong"]);
    usage::on_request(env!("CARGO_BIN_EXE_profile"));
    usage::on_error(env!("CARGO_BIN_EXE_profile"), &["work", "7", "Vote", "accepted"]);
    usage::on_error(env!("CARGO_BIN_EXE_profile"), &["names", "4097"]);
    usage::on_error(env!("CARGO_BIN_EXE_profile"), &["contents", "256", "Vote", "With"]);
}
