#[path = "../published.rs"]
mod published;

use published::Module;

const ROOT: &str = "../../..";

fn main() {
    let module = |name, file| Module { name, file };
    published::declare(
        &[
            module("frame", "crypto/stark/src/frame.rs"),
            module("table", "crypto/stark/src/table.rs"),
            module("traits", "crypto/stark/src/traits.rs"),
        ],
        ROOT,
        "stark.rs",
    );
    published::declare(
        &[
            module("builder", "crypto/stark/src/constraint_ir/builder.rs"),
            module("device", "crypto/stark/src/constraint_ir/device.rs"),
            module("interp", "crypto/stark/src/constraint_ir/interp.rs"),
            module("ir", "crypto/stark/src/constraint_ir/ir.rs"),
        ],
        ROOT,
        "constraint_ir.rs",
    );
    published::declare(
        &[module("builder", "crypto/stark/src/constraints/builder.rs")],
        ROOT,
        "constraints.rs",
    );
}
