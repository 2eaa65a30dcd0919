//! What is compared, and what is said of it.
use chaffrail::{Answer, Kind};
use std::fmt::Debug;

/// Counts comparisons, and prints the first difference of each kind. Inputs come smallest first.
#[derive(Default)]
pub struct Tally {
    pub compared: u64,
    pub wrong: u64,
    seen: Vec<&'static str>,
}

impl Tally {
    pub fn same<T: PartialEq + Debug>(&mut self, what: &'static str, input: impl Debug, theirs: T, ours: T) {
        self.compared += 1;
        if theirs != ours {
            self.wrong += 1;
            if !self.seen.contains(&what) {
                self.seen.push(what);
                println!("{what} at {input:?}: {theirs:?} is right, {ours:?} was answered");
            }
        }
    }

    /// Every element is a comparison.
    pub fn all<T: PartialEq + Debug>(&mut self, what: &'static str, input: impl Debug, theirs: &[T], ours: &[T]) {
        if theirs == ours {
            self.compared += theirs.len() as u64;
        } else {
            self.same(what, input, theirs, ours);
        }
    }
}

pub fn refused<T>(answer: Result<T, chaffrail::Refusal>) -> Option<(Kind, u32)> {
    answer.err().map(|r| (r.kind, r.place))
}

/// The whole answer of a refused call that hands back what was to be carried.
pub fn handed_back(kind: Kind, carry: i32) -> Answer {
    Answer { refusal: kind as u32, place: 0, value: 0, carry }
}

/// A refused call leaves the packet as it was.
pub fn unchanged(t: &mut Tally, what: &'static str, input: impl Debug + Copy, kind: Kind, len: usize, call: impl Fn(&mut [u8]) -> Result<(), chaffrail::Refusal>) {
    let mut lent = vec![0x5a; len];
    t.same(what, input, Some((kind, 0)), refused(call(&mut lent)));
    t.all(what, input, &vec![0x5a; len], &lent);
}
