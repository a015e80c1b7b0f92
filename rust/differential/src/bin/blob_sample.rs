//! Prints the fixed sample of blobs and of programs to be lowered. `differential::blobs::sample` and
//! `differential::lowering::sample` say what the numbers of a line are.

#![forbid(unsafe_code)]

use differential::blobs::sample::lines;

fn main() {
    for line in lines() {
        println!("{line}");
    }
}
