//! Links the proved reader. The proved checker comes with the crate `order_check`.
#![forbid(unsafe_code)]

fn main() {
    link::link("order_read_c");
}
