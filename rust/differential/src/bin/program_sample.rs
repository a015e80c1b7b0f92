//! Prints the fixed sample of programs. `differential::programs::sample` says what the numbers of a line are.

#![forbid(unsafe_code)]

use differential::programs::sample::lines;

fn main() {
    for line in lines() {
        println!("{line}");
    }
}
