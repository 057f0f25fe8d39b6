//! The printing program.

use std::env;
use std::path::{Path, PathBuf};

/// `crates/order_check/out/order_check` in the repository, or the program that `ORDER_CHECK` names.
pub fn program() -> PathBuf {
    let made = Path::new(env!("CARGO_MANIFEST_DIR")).join("../../crates/order_check/out/order_check");
    env::var_os("ORDER_CHECK").map_or(made, PathBuf::from)
}
