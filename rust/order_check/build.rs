//! Links the proved checker, and tells the test that calls it from C where it stands.
#![forbid(unsafe_code)]

fn main() {
    let archive = link::link("order_check_c");
    println!("cargo:rustc-env=ORDER_CHECK_ARCHIVE={}", archive.display());
}
