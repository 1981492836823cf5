//! The numbers that two lists have in common:
//!
//!     ./install --prefix DIR --library
//!     RHSET_LIBRARY=DIR/lib cargo run --manifest-path examples/rust/Cargo.toml --example common

fn main() -> Result<(), rhset::Error> {
    for number in rhset::intersect(&[4, 9, 16, 25, 36, 1], &[2, 4, 8, 16, 32])? {
        println!("{number}");
    }
    Ok(())
}
