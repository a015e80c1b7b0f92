//! The listing of a stored file: what the program `blob_list` prints.

use std::fmt::Arguments;
use std::io::{self, Write};
use std::path::{Path, PathBuf};
use std::process::{Command, Stdio};
use std::thread;
use std::time::Duration;

use super::{read_form_a, refusal, trailer};
use crate::Score;

/// A longer file is not listed.
pub const LONGEST: usize = 65_536;

/// Between two pieces of a file, so that the program meets the end of the first before the second is there.
const PAUSE: Duration = Duration::from_millis(2);

/// The listing as the scope document has it, or the number of the refusal.
fn listing(file: &[u8]) -> Result<String, u8> {
    if LONGEST < file.len() {
        return Err(1);
    }
    let blob = read_form_a(file).ok_or(15)?;
    let mut text = line("blob", &trailer(&blob.counts)[..7]);
    text.extend(blob.nodes.chunks_exact(4).map(|node| line("node", node)));
    text.extend(blob.base_consts.iter().map(|word| line("const", [word])));
    text.extend(blob.ext_consts.chunks_exact(3).map(|limbs| line("ext", limbs)));
    text.extend(blob.roots.iter().map(|word| line("root", [word])));
    Ok(text + "end\n")
}

fn line(name: &str, numbers: impl IntoIterator<Item = impl ToString>) -> String {
    let words: Vec<String> = numbers.into_iter().map(|number| number.to_string()).collect();
    format!("{name} {}\n", words.join(" "))
}

/// Where `./run` puts the program; where it is not there, what to do.
pub fn program() -> Result<PathBuf, String> {
    let program = Path::new(env!("CARGO_MANIFEST_DIR")).join("../../target/bin/blob_list");
    if program.is_file() {
        return Ok(program);
    }
    Err(format!(
        "{} is not there: `./run` in the project's root builds it",
        program.display()
    ))
}

/// What the program prints for a file that comes through a pipe, in these pieces.
fn printed(program: &Path, pieces: &[&[u8]]) -> io::Result<Vec<u8>> {
    let mut child = Command::new(program)
        .stdin(Stdio::piped())
        .stdout(Stdio::piped())
        .spawn()?;
    let mut input = child.stdin.take().expect("it is a pipe");
    let mut len = 0;
    for piece in pieces {
        if len != 0 {
            thread::sleep(PAUSE);
        }
        len += piece.len();
        // It reads all of its input, at most a byte more than it lists, before it prints.
        match input.write_all(piece) {
            Err(error) if error.kind() == io::ErrorKind::BrokenPipe && LONGEST < len => break,
            written => written?,
        }
    }
    drop(input);
    let output = child.wait_with_output()?;
    if output.status.success() {
        Ok(output.stdout)
    } else {
        Err(io::Error::other(output.status.to_string()))
    }
}

/// Holds what the program prints for a file to the plain listing, byte for byte, and gives it.
#[track_caller]
pub fn compare(score: &mut Score, program: &Path, pieces: &[&[u8]], what: Arguments<'_>) -> String {
    let file = pieces.concat();
    let ours = match printed(program, pieces) {
        Ok(ours) => ours,
        Err(error) => panic!("{what}: {} did not run to its end: {error}", program.display()),
    };
    let plain = listing(&file);
    score.answered(&plain.as_ref().map_or_else(|number| refusal(*number), |_| Ok(())));
    let plain = plain.unwrap_or_else(|number| format!("refused {number}\n"));
    assert!(
        ours == plain.as_bytes(),
        "{what}: the program prints\n{}and not\n{plain}for {file:?}",
        String::from_utf8_lossy(&ours)
    );
    score.words += plain.split_whitespace().count() as u64;
    plain
}
