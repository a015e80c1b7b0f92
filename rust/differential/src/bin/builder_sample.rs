//! Prints the fixed sample of rows of builder calls. `differential::builder::sample` says what the numbers of a line are.

#![forbid(unsafe_code)]

use differential::builder::sample::lines;

fn main() {
    for line in lines() {
        println!("{line}");
    }
}
