//! The library's calls are declared three times, in Rattle, in C and here, and no linker holds the three to each other: this
//! reads all of them, and their parameters have to be of the same types in the same order.

#![forbid(unsafe_code)]

use std::collections::BTreeMap;
use std::fs;
use std::path::{Path, PathBuf};

/// The types of a call's parameters as the C calling convention has them: a slice is a pointer and a length.
type Calls = BTreeMap<String, Vec<String>>;

fn root() -> PathBuf {
    Path::new(env!("CARGO_MANIFEST_DIR")).join("../..")
}

/// The text of every file with this ending in a folder, without lines that are comments.
fn sources(folder: &Path, ending: &str) -> String {
    let mut text = String::new();
    for entry in fs::read_dir(folder).expect("the folder is there") {
        let path = entry.expect("its files can be listed").path();
        if path.extension().is_some_and(|found| found == ending) {
            let file = fs::read_to_string(path).expect("a source is text");
            let lines = file.lines().filter(|line| !line.trim_start().starts_with("//"));
            text.extend(lines.flat_map(|line| [line, "\n"]));
        }
    }
    text
}

/// What stands before the bracket that closes the one before `text`.
fn within(text: &str) -> &str {
    let mut depth = 1;
    for (at, letter) in text.char_indices() {
        match letter {
            '(' | '[' => depth += 1,
            ')' | ']' => depth -= 1,
            _ => (),
        }
        if depth == 0 {
            return &text[..at];
        }
    }
    panic!("a bracket is not closed");
}

/// Items between commas, without brackets around commas.
fn items(text: &str) -> impl Iterator<Item = &str> {
    text.split(',').map(str::trim).filter(|item| !item.is_empty())
}

fn owned<const N: usize>(types: [&str; N]) -> Vec<String> {
    types.map(str::to_string).to_vec()
}

fn slice(kind: &str, word: &str) -> Vec<String> {
    vec![format!("*{kind} {word}"), "usize".to_string()]
}

/// `pub extern "C" fn NAME(a: u64, b: &[u64], c: &mut [u32], d: &mut u64) -> u64`
fn rattle() -> Calls {
    let text: String = env!("HOST_LIBRARIES")
        .split(' ')
        .map(|name| sources(&root().join("crates").join(name).join("src"), "rt"))
        .collect();
    let mut calls = Calls::new();
    for call in text.split("pub extern \"C\" fn ").skip(1) {
        let (name, rest) = call.split_once('(').expect("a call has parameters");
        let parameters = within(rest);
        assert!(rest[parameters.len()..].starts_with(") -> u64"), "{name} answers a u64");
        let types = items(parameters).flat_map(|parameter| {
            let (_, of) = parameter.split_once(':').expect("a parameter has a type");
            let bare = of.trim().trim_start_matches("&mut ").trim_start_matches('&');
            let word = bare.trim_start_matches('[').trim_end_matches(']');
            match (of.contains('['), of.contains("&mut")) {
                (true, true) => slice("mut", word),
                (true, false) => slice("const", word),
                (false, true) => vec![format!("*mut {word}")],
                (false, false) => owned([word]),
            }
        });
        calls.insert(name.to_string(), types.collect());
    }
    calls
}

/// `uint64_t NAME(uint64_t a, const uint64_t *b, size_t b_len, uint32_t *c, size_t c_len, uint64_t *d);`
fn header() -> Calls {
    let text = fs::read_to_string(root().join("include/cir.h")).expect("the header is there");
    let code: String = text
        .split("/*")
        .map(|part| part.split_once("*/").map_or(part, |(_, code)| code))
        .collect();
    let mut calls = Calls::new();
    for call in code.split("uint64_t cir_").skip(1) {
        let (name, rest) = call.split_once('(').expect("a call has parameters");
        let types = items(within(rest)).map(|parameter| {
            let words: Vec<&str> = parameter.split_whitespace().collect();
            let word = |name: &str| match name {
                "size_t" => "usize".to_string(),
                _ => name.trim_end_matches("_t").replace("uint", "u").replace("int", "i"),
            };
            match words[..] {
                ["const", of, _] => format!("*const {}", word(of)),
                [of, name] if name.starts_with('*') => format!("*mut {}", word(of)),
                [of, _] => word(of),
                _ => panic!("a parameter that is not understood: {parameter}"),
            }
        });
        calls.insert(format!("cir_{name}"), types.collect());
    }
    calls
}

/// `call!(NAME: number u64 a, read u64 b, write u32 c, out u64 d,)`, and the words that stand for several parameters.
fn wrapped() -> Calls {
    let source = root().join("rust/host/src");
    let text = sources(&source, "rs") + &sources(&source.join("lent"), "rs");
    let mut calls = Calls::new();
    for call in text.split("call!(").skip(1) {
        let Some((name, rest)) = call.split_once(':').filter(|(name, _)| name.trim().starts_with("cir_")) else {
            continue;
        };
        let types = items(within(rest)).flat_map(|parameter| {
            let words: Vec<&str> = parameter.split_whitespace().collect();
            let tables = |kind, short, long| [short, long, long, short].map(|word| slice(kind, word)).concat();
            match words[..] {
                ["number", word, ..] => owned([word]),
                ["out", word, ..] => vec![format!("*mut {word}")],
                ["read", word, ..] => slice("const", word),
                ["write", word, ..] => slice("mut", word),
                ["counts", ..] | ["shape", ..] => owned(["usize"; 5]),
                ["blob_counts", ..] => owned(["u32"; 7]),
                ["offset", ..] => owned(["u64"; 3]),
                ["tables", short, long, ..] => tables("const", short, long),
                ["cells", word, ..] => tables("const", word, word),
                ["rooms", ..] => tables("mut", "u32", "u64"),
                ["lists", ..] => [(); 5].map(|()| slice("mut", "u32")).concat(),
                ["builder", ..] => [owned(["*mut usize"]), slice("mut", "u32"), slice("mut", "u32")].concat(),
                ["constants", ..] => {
                    let nodes = [slice("mut", "u32"), slice("mut", "u32")].concat();
                    [owned(["*mut usize"; 2]), nodes, slice("mut", "u64")].concat()
                }
                ["builder_bytes", ..] => {
                    let words = [slice("mut", "u32"), slice("mut", "u32")].concat();
                    [owned(["*mut usize"]), slice("mut", "u8"), slice("mut", "u8"), words].concat()
                }
                ["constants_bytes", ..] => {
                    let bytes = [(); 3].map(|()| slice("mut", "u8")).concat();
                    let words = ["u32", "u32", "u64"].map(|word| slice("mut", word)).concat();
                    [owned(["*mut usize"; 2]), bytes, words].concat()
                }
                ["handle", ..] => owned(["u32"; 2]),
                ["made", ..] => owned(["*mut u32"; 2]),
                _ => panic!("a parameter that is not understood: {parameter}"),
            }
        });
        calls.insert(name.trim().to_string(), types.collect());
    }
    calls
}

/// The calls in Rattle, and no others, stand in another place too, with the same types.
#[track_caller]
fn the_same_calls(rattle: &Calls, there: &Calls, place: &str) {
    println!("{} calls in Rattle, {} in {place}", rattle.len(), there.len());
    assert!(rattle.contains_key("cir_lower"));
    for (name, types) in rattle {
        assert_eq!(there.get(name), Some(types), "{name} in {place}");
    }
    for name in there.keys() {
        assert!(rattle.contains_key(name), "{name} of {place} in Rattle");
    }
}

#[test]
fn the_header_has_the_calls_of_the_library() {
    the_same_calls(&rattle(), &header(), "include/cir.h");
}

#[test]
fn this_crate_has_the_calls_of_the_library() {
    the_same_calls(&rattle(), &wrapped(), "rust/host");
}
