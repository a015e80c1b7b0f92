#[path = "../published.rs"]
mod published;

use published::Module;

fn main() {
    published::declare(
        &[
            Module {
                name: "goldilocks",
                file: "crypto/math/src/field/goldilocks.rs",
            },
            Module {
                name: "extensions_goldilocks",
                file: "crypto/math/src/field/extensions_goldilocks.rs",
            },
        ],
        "../../..",
        "field.rs",
    );
}
