//! Comparing, and counting what was compared.

use std::fmt::Arguments;

use host::Refusal;

use crate::P;

/// Counts the words that one test compared, so that the test can say the number and a loop that ran over nothing shows.
pub struct Tally {
    test: &'static str,
    words: u64,
}

impl Tally {
    pub fn new(test: &'static str) -> Self {
        Tally { test, words: 0 }
    }

    /// Holds the host's word to the published one: congruent modulo p, and below p itself. `what` says which operation
    /// on which inputs, and is written out on a failure only.
    #[track_caller]
    pub fn word(&mut self, ours: u64, published: u64, what: Arguments<'_>) {
        assert!(ours < P, "{what}: ours is {ours:#x}, not below p");
        self.same_residue(ours, published, what);
    }

    /// As `word`, for a row of words.
    #[track_caller]
    pub fn words(&mut self, ours: &[u64], published: &[u64], what: Arguments<'_>) {
        assert_eq!(ours.len(), published.len(), "{what}: lengths");
        for (at, (ours, published)) in ours.iter().zip(published).enumerate() {
            self.word(*ours, *published, format_args!("{what}, word {at}"));
        }
    }

    /// Holds two words to each other modulo p, and asks nothing more of either.
    #[track_caller]
    pub fn same_residue(&mut self, one: u64, other: u64, what: Arguments<'_>) {
        assert!(one % P == other % P, "{what}: {one:#x} and {other:#x} differ modulo p");
        self.words += 1;
    }

    /// Holds words that the call may not write to what they were.
    #[track_caller]
    pub fn untouched(&mut self, now: &[u64], before: &[u64], what: Arguments<'_>) {
        assert!(
            now == before,
            "{what}: words that are not the call's to write went from {before:x?} to {now:x?}"
        );
        self.words += now.len() as u64;
    }

    /// Says how many words were compared, and holds that to the number that the test means to compare.
    #[track_caller]
    pub fn finish(self, meant: usize) {
        println!("{}: {} words compared", self.test, self.words);
        assert_eq!(self.words, meant as u64, "{}: words compared", self.test);
    }
}

/// Counts what a test of programs or blobs compared: how many agree with the published Rust, words, and each number that
/// was answered, so that a test can say them and a loop that never got to a refusal shows.
pub struct Score {
    test: &'static str,
    pub agreed: u64,
    pub words: u64,
    answers: [u64; 16],
}

impl Score {
    pub fn new(test: &'static str) -> Self {
        Score {
            test,
            agreed: 0,
            words: 0,
            answers: [0; 16],
        }
    }

    pub fn answered(&mut self, answer: &Result<(), Refusal>) {
        let number = answer.map_or_else(|refusal| refusal.number, |()| 0);
        self.answers[usize::from(number)] += 1;
    }

    /// How often this number was answered.
    pub fn times(&self, number: usize) -> u64 {
        self.answers[number]
    }

    /// Each number that was answered and how often.
    pub fn answers(&self) -> String {
        let answers: Vec<String> = (0..16)
            .filter(|number| self.answers[*number] != 0)
            .map(|number| format!("{number}: {}", self.answers[number]))
            .collect();
        answers.join(", ")
    }

    /// Says what was compared; each of `numbers` has to have been answered, and no other.
    #[track_caller]
    pub fn finish(self, numbers: &[usize]) {
        let Score {
            test, agreed, words, ..
        } = self;
        if agreed != 0 {
            println!("{test}: {agreed} agree with the published Rust");
        }
        println!("{test}: {words} words compared; answers by number {}", self.answers());
        for number in 0..16 {
            assert_eq!(
                self.answers[number] != 0,
                numbers.contains(&number),
                "{test}: whether {number} was answered"
            );
        }
    }
}
