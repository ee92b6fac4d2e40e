//! What calls, queries, comparisons, calls on waiting strokes, bursts and merges told, counted.
use crate::burst;
use crate::call::{Call, Opcode, CALLS};
use crate::merge;
use crate::pair::{Comparison, COMPARISONS};
use crate::query::{Query, QUERIES};
use crate::refusal::{Answer, Bounded, Refusal, Signed, Values, REFUSALS};
use crate::waiting::{Waiting, WAITING};
use std::io::Write;

/// How often one of them was accepted, at 0, and met each refusal, at its number.
#[derive(Default)]
struct Told([usize; 1 + REFUSALS.len()]);

impl Told {
    fn note(&mut self, refusal: Option<Refusal>) {
        self.0[refusal.map_or(0, |refusal| refusal.number() as usize)] += 1;
    }

    fn met(&self, refusal: Refusal) -> usize {
        self.0[refusal.number() as usize]
    }

    fn sum(&self) -> usize {
        self.0.iter().sum()
    }

    /// Asserts that it was accepted, and met these refusals and no other.
    fn expect(&self, name: &str, refusals: &[Refusal], what: &str) {
        assert!(self.0[0] > 0, "{what}: {name} was never accepted");
        let met: Vec<Refusal> = REFUSALS.into_iter().filter(|refusal| self.met(*refusal) > 0).collect();
        assert_eq!(met, refusals, "{what}: what {name} told");
    }
}

#[derive(Default)]
pub struct Tally {
    calls: [Told; CALLS],
    queries: [Told; QUERIES.len()],
    comparisons: [Told; COMPARISONS.len()],
    waiting: [Told; WAITING.len()],
    bursts: Told,
    merges: Told,
}

impl Tally {
    pub fn note(&mut self, call: Call, told: Values) {
        self.calls[call.opcode() as usize].note(told.err());
    }

    pub fn note_query(&mut self, query: Query, told: Answer) {
        self.queries[query.index()].note(told.err());
    }

    pub fn note_comparison(&mut self, comparison: Comparison, told: Signed) {
        self.comparisons[comparison.index()].note(told.err());
    }

    pub fn note_waiting(&mut self, waiting: Waiting, told: Bounded) {
        self.waiting[waiting.index()].note(told.err());
    }

    pub fn note_burst(&mut self, told: Answer) {
        self.bursts.note(told.err());
    }

    pub fn note_merge(&mut self, told: Answer) {
        self.merges.note(told.err());
    }

    /// Whether a call was ever made.
    pub fn made(&self, opcode: Opcode) -> bool {
        self.calls[opcode as usize].sum() > 0
    }

    /// Asserts that a call was accepted, and met these refusals, in the order of their numbers, and no other.
    pub fn expect(&self, opcode: Opcode, refusals: &[Refusal], what: &str) {
        self.calls[opcode as usize].expect(opcode.name(), refusals, what);
    }

    /// Asserts that each query was accepted, and met every refusal that it can and no other.
    pub fn expect_queries(&self, what: &str) {
        QUERIES.into_iter().for_each(|q| self.queries[q.index()].expect(q.name(), q.refusals(), what));
    }

    /// Asserts that each comparison was accepted, and met every refusal that it can and no other.
    pub fn expect_comparisons(&self, what: &str) {
        COMPARISONS.into_iter().for_each(|c| self.comparisons[c.index()].expect(c.name(), c.refusals(), what));
    }

    /// Asserts that each call on waiting strokes was accepted, and met every refusal that it can and no other.
    pub fn expect_waiting(&self, what: &str) {
        WAITING.into_iter().for_each(|w| self.waiting[w.index()].expect(w.name(), w.refusals(), what));
    }

    /// Asserts that a burst was found, and that every refusal that it can meet was met and no other.
    pub fn expect_bursts(&self, what: &str) {
        self.bursts.expect("burst", &burst::REFUSALS, what);
    }

    /// Asserts that a merge was accepted, and that every refusal that it can meet was met and no other.
    pub fn expect_merges(&self, what: &str) {
        self.merges.expect("merge", &merge::REFUSALS, what);
    }

    /// Prints how many calls of each kind were made, and how often each refusal was met.
    pub fn print(&self, what: &str) {
        let adds = self.calls[Opcode::Push as usize].sum();
        print(what, &format!("calls, {adds} of them adds"), &self.calls);
        print(what, "queries", &self.queries);
        print(what, "comparisons", &self.comparisons);
        print(what, "calls on waiting strokes", &self.waiting);
        print(what, "bursts", std::slice::from_ref(&self.bursts));
        print(what, "merges", std::slice::from_ref(&self.merges));
    }
}

/// Prints what those of one kind told, if there were any.
fn print(what: &str, kind: &str, list: &[Told]) {
    let number: usize = list.iter().map(Told::sum).sum();
    if number == 0 {
        return;
    }
    let met = |refusal: Refusal| list.iter().map(|told| told.met(refusal)).sum::<usize>();
    let refusals: Vec<String> = REFUSALS
        .into_iter()
        .filter(|refusal| met(*refusal) > 0)
        .map(|refusal| format!("{}: {}", refusal.number(), met(refusal)))
        .collect();
    // not by println!, which the harness keeps back where the test passes
    let mut out = std::io::stdout();
    writeln!(out, "{what}: {number} {kind}; refusals {}", refusals.join(", ")).unwrap();
}
