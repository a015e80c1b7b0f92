//! Lines of a printed sample, which a Rattle program replays: it cannot call the published Rust.
//!
//! One line is one case. Its numbers are decimal and one space apart; each fits 64 bits. The first says how many follow.
//! An answer is its number plus 256 times its place.

use std::collections::BTreeSet;
use std::vec::IntoIter;

use host::Refusal;
use host::lent::program::Shape;

use crate::Limbs;
use crate::programs::compare::Answer;

/// A line in the making.
#[derive(Default)]
pub struct Line {
    numbers: Vec<u64>,
}

impl Line {
    pub fn counts(&mut self, counts: &[usize]) {
        self.numbers.extend(counts.iter().map(|count| *count as u64));
    }

    pub fn words(&mut self, words: &[u64]) {
        self.numbers.extend(words);
    }

    pub fn short_words(&mut self, words: &[u32]) {
        self.numbers.extend(words.iter().map(|word| u64::from(*word)));
    }

    /// Steps, main width, aux width, challenges, alphas.
    pub fn shape(&mut self, shape: &Shape) {
        self.counts(&[
            shape.steps,
            shape.main_width,
            shape.aux_width,
            shape.challenges,
            shape.alphas,
        ]);
    }

    /// Says whether it is 0, so that values follow.
    pub fn answer(&mut self, answer: Answer) -> bool {
        self.numbers.push(match answer {
            Ok(()) => 0,
            Err(refusal) => u64::from(refusal.number) + 256 * refusal.place,
        });
        answer.is_ok()
    }

    /// The evals that are written: the base ones, then three words for each constraint from `num_base` on.
    pub fn evals(&mut self, num_base: usize, roots: usize, base: &[u64], ext: &[u64]) {
        let leading = num_base.min(roots);
        self.words(&base[..leading]);
        if leading < roots {
            self.words(&ext[3 * leading..3 * roots]);
        }
    }

    pub fn finish(self) -> String {
        let mut line = self.numbers.len().to_string();
        for number in self.numbers {
            line += &format!(" {number}");
        }
        line
    }
}

/// Takes the numbers of a line one after the other.
pub struct Numbers {
    rest: IntoIter<u64>,
}

impl Numbers {
    #[track_caller]
    pub fn of(line: &str) -> Self {
        let mut all = line
            .split(' ')
            .map(|number| number.parse::<u64>().expect("a decimal number"));
        let following = all.next().expect("no line is empty") as usize;
        let numbers: Vec<u64> = all.collect();
        assert_eq!(numbers.len(), following, "{line}");
        Numbers {
            rest: numbers.into_iter(),
        }
    }

    #[track_caller]
    pub fn one(&mut self) -> u64 {
        self.rest.next().expect("the line is long enough")
    }

    #[track_caller]
    pub fn count(&mut self) -> usize {
        self.one() as usize
    }

    #[track_caller]
    pub fn short(&mut self) -> u32 {
        u32::try_from(self.one()).expect("a word of 32 bits")
    }

    #[track_caller]
    pub fn words(&mut self, count: usize) -> Vec<u64> {
        (0..count).map(|_| self.one()).collect()
    }

    #[track_caller]
    pub fn short_words(&mut self, count: usize) -> Vec<u32> {
        (0..count).map(|_| self.short()).collect()
    }

    #[track_caller]
    pub fn limbs(&mut self) -> Limbs {
        [self.one(), self.one(), self.one()]
    }

    #[track_caller]
    pub fn shape(&mut self) -> Shape {
        Shape {
            steps: self.count(),
            main_width: self.count(),
            aux_width: self.count(),
            challenges: self.count(),
            alphas: self.count(),
        }
    }

    /// Holds an answer to the line's, and says whether values follow.
    #[track_caller]
    pub fn answer(&mut self, answer: Answer, answered: &mut BTreeSet<u8>, what: &str) -> bool {
        let said = self.one();
        let (number, place) = ((said % 256) as u8, said / 256);
        let expected = if said == 0 {
            Ok(())
        } else {
            Err(Refusal { number, place })
        };
        assert_eq!(answer, expected, "{what}");
        answered.insert(number);
        said == 0
    }

    #[track_caller]
    pub fn end(mut self, what: &str) {
        assert_eq!(self.rest.next(), None, "the line ends here, {what}");
    }
}

/// Holds the file that a Rattle program reads to the lines that the named program prints.
#[track_caller]
pub fn file_has(file: &str, kept: &str, lines: &[String], printer: &str) {
    let printed: String = lines.iter().map(|line| format!("{line}\n")).collect();
    assert!(
        kept == printed,
        "{file} is not the sample: write what `cargo run --release --offline -p differential --bin {printer}` prints to it"
    );
}
