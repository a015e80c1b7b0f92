//! Program E of the scope document, captured, lowered and walked by the published Rust: the listing and the values that
//! the document states. The one test that the shims do not change what the published files do.

#![forbid(unsafe_code)]

use stark::constraint_ir::device::{DeviceProgram, eval_device_program};
use stark::program_e;

#[test]
fn lowers_as_listed() {
    let blob = DeviceProgram::lower(&program_e());
    let nodes: Vec<[u32; 4]> = blob.nodes.iter().map(|n| [n.op, n.a, n.b, n.res]).collect();
    assert_eq!(
        nodes,
        [
            [2, 0, 65536, 0],
            [2, 0, 65792, 1],
            [7, 1, 0, 0],
            [7, 0, 1073741825, 0],
            [2, 2, 0, 2147483648],
            [8, 536870912, 2147483648, 2147483648],
            [6, 536870912, 0, 2147483648],
        ]
    );
    assert_eq!(blob.base_consts, [0, 1]);
    assert_eq!(blob.ext_consts, [[0u64; 3]; 0]);
    assert_eq!(blob.roots, [0, 2147483648]);
    assert_eq!((blob.num_base, blob.num_base_slots, blob.num_ext_slots), (1, 2, 1));
}

#[test]
fn walks_to_the_stated_values() {
    let mut base_evals = [77; 2];
    let mut ext_evals = [[77; 3]; 2];
    eval_device_program(
        &DeviceProgram::lower(&program_e()),
        &[vec![5], vec![9]],
        &[vec![[0; 3], [0; 3], [1, 2, 3]], vec![[0; 3]; 3]],
        &[[4, 5, 6]],
        &[],
        [0; 3],
        &mut base_evals,
        &mut ext_evals,
    );
    assert_eq!(base_evals, [3, 77]);
    assert_eq!(ext_evals, [[77; 3], [61, 49, 28]]);
}
