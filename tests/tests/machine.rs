//! Lists of calls: the runner against the paper machine. Each list is drawn while the machine runs it, then run at once.
use strip_tests::borders::{
    BAD_CAPACITIES, COUNTERS, LARGEST, MOST_BYTES, ONE_LEVEL, SIZES, THREE_LEVELS, TWO_LEVELS, TWO_LEVELS_FULL, VALUES,
};
use strip_tests::call::{Call, Opcode, CALLS, OPCODES};
use strip_tests::cases::{at_call, setting, Cases};
use strip_tests::draw::{self, Scene};
use strip_tests::ffi;
use strip_tests::image::rows;
use strip_tests::layout;
use strip_tests::model::{counter_count, length, word_count};
use strip_tests::paper::Machine;
use strip_tests::random::Random;
use strip_tests::record::UNTOUCHED;
use strip_tests::refusal::{numbers, values, Refusal, Values};
use strip_tests::script::Buffers;
use strip_tests::tally::Tally;
use strip_tests::Handle;
use Opcode::*;
use Refusal::*;

/// The refusals that a call can meet after an accepted opening, in the order of their numbers.
fn refusals(opcode: Opcode) -> &'static [Refusal] {
    match opcode {
        Create => &[BadHandle, WordCount],
        Push => &[Full, BadValue],
        Flip | Truncate | Get => &[Position],
        Fill => &[Position, Span, BadValue],
        Rank => &[Position, BadValue],
        Select => &[NotFound, BadValue],
        Successor | Predecessor => &[Position, NotFound, BadValue],
        Verify | Clear | Inspect => &[],
        Freeze => &[BadLabel, LabelPresent, NoRoom],
        RowRank => &[Position, BadValue, BadLabel, LabelAbsent],
        RowSelect => &[NotFound, BadValue, BadLabel, LabelAbsent],
        RowGet => &[Position, BadLabel, LabelAbsent],
    }
}

/// Asserts, where all lists were run, that every call told all that it can, and prints how often.
fn finish(cases: &Cases, tally: &Tally, what: &str) {
    let what = format!("lists, {what}, seed {}", cases.seed());
    if cases.all() {
        OPCODES.into_iter().for_each(|opcode| tally.expect(opcode, refusals(opcode), &what));
    }
    tally.print(&what);
}

// ---- a list

/// What is lent, the machine opened on it, the script so far and the answers that it shall give.
struct List {
    capacity: u64,
    clear_first: u64,
    words: Vec<u64>,
    counters: Vec<u32>,
    image: Vec<u8>,
    machine: Result<Machine, Refusal>,
    script: Vec<u64>,
    answers: Vec<u64>,
    /// the machine's handle after each call
    handles: Vec<Handle>,
}

impl List {
    /// An opening with anything in the buffers.
    fn open(random: &mut Random, capacity: u64, clear_first: u64, [words, counters, bytes]: [usize; 3]) -> List {
        let image: Vec<u8> = (0..bytes).map(|_| random.number() as u8).collect();
        List {
            capacity,
            clear_first,
            words: (0..words).map(|_| random.number()).collect(),
            counters: (0..counters).map(|_| random.number() as u32).collect(),
            machine: Machine::open(capacity, clear_first != 0, (words, counters), &image),
            image,
            script: Vec::new(),
            answers: Vec::new(),
            handles: Vec::new(),
        }
    }

    /// As many words and counters as the capacity needs.
    fn fitting(random: &mut Random, capacity: u64, bytes: usize) -> List {
        let clear_first = if random.below(4) == 0 { 0 } else { VALUES[random.below(VALUES.len())] };
        List::open(random, capacity, clear_first, [word_count(capacity), counter_count(capacity), bytes])
    }

    fn machine(&self) -> &Machine {
        self.machine.as_ref().unwrap()
    }

    /// One more call; a refused opening runs none.
    fn feed(&mut self, call: Call, tally: &mut Tally) {
        self.script.extend(call.numbers());
        let Ok(machine) = &mut self.machine else { return };
        let told = machine.step(call);
        self.answers.extend(numbers(told));
        self.handles.push(machine.strip.handle());
        tally.note(call, told);
    }

    /// Adds, of which about `share` in 1,000 are of 1.
    fn push(&mut self, random: &mut Random, number: u64, share: usize, tally: &mut Tally) {
        for _ in 0..number {
            let v = u64::from(random.below(1000) < share);
            self.feed(Call::new(Push, [v, 0, 0]), tally);
        }
    }

    /// Calls of every kind.
    fn mix(&mut self, random: &mut Random, number: usize, tally: &mut Tally) {
        let weights = weights(random);
        for _ in 0..number {
            let opcode = OPCODES[weighted(random, &weights)];
            let machine = self.machine();
            let capacity = machine.strip.capacity;
            let scene = Scene { capacity, strip: machine.strip.bits(), rows: &machine.shelf };
            let call = draw::call(random, opcode, &scene);
            self.feed(call, tally);
        }
    }

    /// The number of answers of this script.
    fn room(&self) -> usize {
        4 + 3 * (self.script.len() / 4)
    }

    /// Runs the script with `spare` more numbers than its answers need, and compares all that it leaves.
    fn compare(&self, spare: usize) {
        let mut buffers = Buffers::new(&self.words, &self.counters, &self.image);
        let (run, answers) = buffers.execute(&self.script, self.capacity, self.clear_first, self.room() + spare);
        match &self.machine {
            Ok(machine) => {
                let h = machine.handle();
                assert_eq!(run, self.script.len() as u64 / 4, "calls run");
                self.compare_answers(&answers[4..self.room()]);
                assert_eq!(answers[..4], [0, h.capacity, h.length, h.total], "the last handle");
                assert!(answers[self.room()..].iter().all(|number| *number == UNTOUCHED), "an answer past the last");
                compare_buffers(&buffers, machine);
            }
            Err(refusal) => {
                let told = (run, Refusal::of(answers[0]));
                assert_eq!(told, (0, *refusal), "a refused opening under capacity {}", self.capacity);
                assert!(answers[1..].iter().all(|number| *number == UNTOUCHED), "an answer after a refused opening");
                self.untouched(&buffers);
            }
        }
    }

    /// Runs the script a call at a time, and compares the handle that each call gives back, what it tells, and all that the last
    /// one leaves.
    fn compare_steps(&self) {
        let mut buffers = Buffers::new(&self.words, &self.counters, &self.image);
        let (_, opened) = buffers.execute(&[], self.capacity, self.clear_first, 4);
        let mut h = Handle { capacity: opened[1], length: opened[2], total: opened[3] };
        let mut answers = Vec::new();
        for (at, (call, owed)) in self.script.chunks_exact(4).zip(&self.handles).enumerate() {
            at_call(at);
            let out = buffers.step(Call { op: call[0], x: call[1], y: call[2], z: call[3] }, h, 6);
            h = Handle::told(&out);
            assert_eq!(h, *owed, "the handle after {call:?}, capacity {}", self.capacity);
            answers.extend(&out[..3]);
        }
        self.compare_answers(&answers);
        assert_eq!(h, self.machine().handle(), "the last handle");
        compare_buffers(&buffers, self.machine());
    }

    /// The answers of the calls; the first that is another is told with its call.
    fn compare_answers(&self, answers: &[u64]) {
        let both = answers.chunks(3).zip(self.answers.chunks(3));
        for (at, (call, (told, wanted))) in self.script.chunks_exact(4).zip(both).enumerate() {
            at_call(at);
            let name = OPCODES[(call[0] % CALLS as u64) as usize].name();
            assert_eq!(values(told), values(wanted), "{name} {:?}, capacity {}", &call[1..], self.capacity);
        }
        assert_eq!(answers.len(), self.answers.len());
    }

    /// Nothing lent has changed.
    fn untouched(&self, buffers: &Buffers) {
        assert!(buffers.words() == self.words && buffers.counters() == self.counters, "the record changed");
        assert!(buffers.image() == self.image, "the image changed");
    }
}

/// Words and counters are those laid afresh from S, the image is F written out over B, and its rows are listed as F.
fn compare_buffers(buffers: &Buffers, machine: &Machine) {
    let strip = &machine.strip;
    assert!(buffers.words() == strip.words(), "words under {:?}", strip.handle());
    assert!(buffers.counters() == strip.counters(), "counters under {:?}", strip.handle());
    let (image, shelf) = (buffers.image(), &machine.shelf);
    assert!(image == machine.image(), "{} rows in {} bytes", shelf.len(), image.len());
    let listed = shelf.iter().map(|(label, bits)| (*label, length(bits))).collect();
    assert_eq!(rows(image), (listed, LabelAbsent));
}

/// How often each call comes in a list; lay and clear seldom, for they empty the strip and the shelf. In half of the lists
/// run and cut do not come, for they lay all counters.
fn weights(random: &mut Random) -> [usize; CALLS] {
    let mut weights = [0; CALLS].map(|_| [2, 5, 12][random.below(3)]);
    weights[Create as usize] = 1 + random.below(2);
    weights[Push as usize] = [5, 30, 150][random.below(3)];
    if random.below(2) == 0 {
        weights[Fill as usize] = 0;
        weights[Truncate as usize] = 0;
    }
    weights[Clear as usize] = [0, 0, 1, 3][random.below(4)];
    weights
}

/// An index, by its weight.
fn weighted(random: &mut Random, weights: &[usize]) -> usize {
    let mut rest = random.below(weights.iter().sum());
    let mut index = 0;
    while rest >= weights[index] {
        rest -= weights[index];
        index += 1;
    }
    index
}

/// A list of rounds, each so many adds and then so many calls of every kind, with a lay before every round but the first: run at
/// once, and one in eight a call at a time too.
fn rounds(random: &mut Random, mut list: List, rounds: &[(u64, usize)], tally: &mut Tally) -> List {
    for (round, (adds, calls)) in rounds.iter().enumerate() {
        if round > 0 {
            list.feed(Call::new(Create, [list.capacity, 0, 0]), tally);
        }
        let share = [0, 3, 300, 500, 997, 1000][random.below(6)];
        list.push(random, *adds, share, tally);
        list.mix(random, *calls, tally);
    }
    list.compare(random.below(20));
    if random.below(8) == 0 {
        list.compare_steps();
    }
    list
}

/// So many adds: none, some, or as many as fill the strip and up to two more.
fn adds(random: &mut Random, capacity: u64) -> u64 {
    match random.below(4) {
        0 => 0,
        1 => capacity + random.number_below(3),
        _ => random.number_below(capacity + 1),
    }
}

// ---- lists

/// A list of up to 7,500 calls and the adds before them, under a small capacity.
fn small_list(random: &mut Random, tally: &mut Tally) -> List {
    let capacity = 512 * (1 + random.number_below(12));
    let most = [40, 1500, 12_000, 80_000][random.below(4)];
    let bytes = 16 + random.below(most);
    let list = List::fitting(random, capacity, bytes);
    let plan: Vec<_> = (0..1 + random.below(3)).map(|_| (adds(random, capacity), random.below(2500))).collect();
    rounds(random, list, &plan, tally)
}

#[test]
fn lists_at_one_level() {
    let (mut cases, mut tally) = (Cases::new("machine", "lists_at_one_level", 101), Tally::default());
    for _ in 0..1500 {
        cases.run(|random| drop(small_list(random, &mut tally)));
    }
    for _ in 0..20 {
        cases.run(|random| {
            let capacity = 512 * [16, 60, 63, 64][random.below(4)];
            let bytes = 16 + random.below(30_000);
            let list = List::fitting(random, capacity, bytes);
            let plan = [(random.number_below(2000), 500), (adds(random, capacity), 2000)];
            rounds(random, list, &plan, &mut tally);
        });
    }
    finish(&cases, &tally, "one level");
}

#[test]
fn lists_at_two_levels() {
    let (mut cases, mut tally) = (Cases::new("machine", "lists_at_two_levels", 102), Tally::default());
    for number in 0..24 {
        cases.run(|random| {
            let capacity = [TWO_LEVELS, 33_792, 65_536, 66_048][random.below(4)];
            let bytes = 16 + random.below(60_000);
            let list = List::fitting(random, capacity, bytes);
            let full =
                [capacity, ONE_LEVEL - random.number_below(40), ONE_LEVEL + random.number_below(500)][number % 3];
            let plan = [(random.number_below(2000), 1000), (full, 5000)];
            rounds(random, list, &plan, &mut tally);
        });
    }
    for adds in [TWO_LEVELS_FULL + 2, 1_000_000] {
        cases.run(|random| long_list(random, TWO_LEVELS_FULL, adds, &mut tally));
    }
    finish(&cases, &tally, "two levels");
}

#[test]
fn lists_at_three_levels() {
    let (mut cases, mut tally) = (Cases::new("machine", "lists_at_three_levels", 103), Tally::default());
    for (capacity, adds) in [(THREE_LEVELS, THREE_LEVELS + 2), (THREE_LEVELS, 2_097_130), (LARGEST, 100_000)] {
        cases.run(|random| long_list(random, capacity, adds, &mut tally));
    }
    // three lists meet every refusal at the test's own seed, and not at each
    if cases.usual() {
        finish(&cases, &tally, "three levels");
    }
}

/// A list with so many adds in its second round.
fn long_list(random: &mut Random, capacity: u64, adds: u64, tally: &mut Tally) {
    let list = List::fitting(random, capacity, 600_000);
    rounds(random, list, &[(40_000, 300), (adds, 1500)], tally);
}

// ---- what a script is

/// A few calls on an opening with buffers of these sizes.
fn short_list(random: &mut Random, capacity: u64, clear_first: u64, sizes: [usize; 3]) -> List {
    let mut list = List::open(random, capacity, clear_first, sizes);
    for opcode in [Push, Push, Freeze, Fill, RowRank, Create, Push, Clear, Inspect, Verify] {
        list.feed(Call::new(opcode, [1; 3]), &mut Tally::default());
    }
    list
}

/// Every opening: its refusal, and then nothing changed, or a list run on it.
#[test]
fn openings() {
    let mut cases = Cases::new("machine", "openings", 104);
    let mut accepted = 0;
    let mut refused = Vec::new();
    for capacity in BAD_CAPACITIES.into_iter().chain([512, 1024, TWO_LEVELS]) {
        for words in [0, 7, 8, 16, 520] {
            for counters in [0, 71, 72, 73, 216] {
                for bytes in SIZES.into_iter().chain([600]) {
                    for clear_first in [0, 1, u64::MAX] {
                        cases.run(|random| {
                            let list = short_list(random, capacity, clear_first, [words, counters, bytes]);
                            list.compare(random.below(3));
                            accepted += usize::from(list.machine.is_ok());
                            refused.extend(list.machine.err());
                        });
                    }
                }
            }
        }
    }
    refused.sort();
    refused.dedup();
    if cases.all() {
        assert!(accepted > 0);
        assert_eq!(refused, [BadHandle, WordCount, CounterCount, NoRoom]);
    }
}

/// Lay's refusals and clear's at once: the first call's count.
#[test]
fn the_first_of_the_opening_refuses() {
    let mut cases = Cases::new("machine", "the_first_of_the_opening_refuses", 105);
    let lays = [(BadHandle, 513, [8, 72]), (WordCount, 512, [9, 72]), (CounterCount, 512, [8, 73])];
    for (refusal, capacity, [words, counters]) in lays {
        for clear_first in VALUES {
            cases.run(|random| {
                let list = short_list(random, capacity, clear_first, [words, counters, 15]);
                assert_eq!(list.machine.as_ref().err(), Some(&if clear_first == 0 { refusal } else { NoRoom }));
                list.compare(0);
            });
        }
    }
}

/// With too few numbers for the answers nothing runs, whatever the opening.
#[test]
fn short_answers() {
    let mut cases = Cases::new("machine", "short_answers", 106);
    for sizes in [[8, 72, 600], [8, 72, 15], [7, 72, 600]] {
        for clear_first in [0, 1] {
            cases.run(|random| {
                let list = short_list(random, 512, clear_first, sizes);
                for room in 0..list.room() {
                    let mut buffers = Buffers::new(&list.words, &list.counters, &list.image);
                    let (run, answers) = buffers.execute(&list.script, 512, clear_first, room);
                    assert_eq!(run, u64::MAX);
                    assert!(answers.iter().all(|number| *number == UNTOUCHED));
                    list.untouched(&buffers);
                }
                list.compare(0);
            });
        }
    }
}

/// The rest of a length that is no multiple of four is unread; a script of no call is an opening alone.
#[test]
fn the_rest_is_unread() {
    let mut cases = Cases::new("machine", "the_rest_is_unread", 107);
    for rest in 0..4 {
        cases.run(|random| {
            let mut list = short_list(random, 512, 0, [8, 72, 600]);
            let mut empty = List::open(random, 512, 1, [8, 72, 16]);
            for list in [&mut list, &mut empty] {
                list.script.extend(&[Push.number(), 1, 0][..rest]);
                list.compare(0);
                list.compare(5);
            }
        });
    }
}

/// An image of 2^32 bytes is the largest. Bytes that no call touches take no memory.
#[test]
fn the_largest_image() {
    let most = MOST_BYTES;
    let (mut image, mut words, mut counters, mut answers) = (vec![0u8; most + 1], [7u64; 8], [7u32; 72], [7u64; 13]);
    let script = script(&[(Push, [1, 0, 0]), (Freeze, [3, 0, 0]), (RowRank, [3, 1, 1])]);
    let mut run = |bytes: usize, clear_first: u64, answers: &mut [u64; 13]| {
        let (s, w, c, i, a) =
            (script.as_ptr(), words.as_mut_ptr(), counters.as_mut_ptr(), image.as_mut_ptr(), answers.as_mut_ptr());
        // SAFETY: the pointers are to at least as many numbers as are named, which live through the call and do not meet.
        let run = unsafe { ffi::strip_execute(s, 12, 512, clear_first, w, 8, c, 72, i, bytes, a, 13) };
        (run, words[0], image[..600].to_vec())
    };
    for clear_first in [0, 1] {
        assert_eq!(run(most + 1, clear_first, &mut answers), (0, 7, vec![0; 600]));
        assert_eq!(answers, [NoRoom.number(), 7, 7, 7, 7, 7, 7, 7, 7, 7, 7, 7, 7]);
    }
    let (calls, word, bytes) = run(most, 0, &mut answers);
    assert_eq!((calls, word), (3, 1));
    assert_eq!(answers, [0, 512, 1, 1, 0, 0, 15, 0, 1, 0, 0, 1, 0]);
    assert!(bytes[..560] == layout::image(&[(0, 3, vec![true])], 0) && bytes[560..].iter().all(|b| *b == 0));
}

/// The numbers of a script.
fn script(calls: &[(Opcode, [u64; 3])]) -> Vec<u64> {
    calls.iter().flat_map(|(opcode, arguments)| Call::new(*opcode, *arguments).numbers()).collect()
}

// ---- the long run, not part of the gate: cargo test --release --test machine -- --ignored

/// A list of few calls, at times with an opening that is refused.
fn tiny_list(random: &mut Random, tally: &mut Tally) {
    let capacity = 512 * (1 + random.number_below(2));
    let most = [1, 40, 600, 1200][random.below(4)];
    let bytes = 16 + random.below(most);
    if random.below(32) == 0 {
        let sizes = [word_count(capacity) + random.below(2), 71 + random.below(2), bytes - random.below(17)];
        let clear_first = random.number_below(2);
        short_list(random, capacity, clear_first, sizes).compare(0);
        return;
    }
    let list = List::fitting(random, capacity, bytes);
    let first = if random.below(64) == 0 { capacity + random.number_below(3) } else { random.number_below(24) };
    let calls = random.below(16);
    rounds(random, list, &[(first, calls)], tally);
}

/// LISTS lists of few calls.
#[test]
#[ignore = "minutes; docs/ROBUSTNESS.md"]
fn many_short_lists() {
    let (mut cases, mut tally) = (Cases::new("machine", "many_short_lists", 108), Tally::default());
    for _ in 0..setting("LISTS").unwrap_or(10_000_000) {
        cases.run(|random| tiny_list(random, &mut tally));
    }
    finish(&cases, &tally, "short");
}

/// LONG_LISTS lists of many calls.
#[test]
#[ignore = "minutes; docs/ROBUSTNESS.md"]
fn many_long_lists() {
    let (mut cases, mut tally) = (Cases::new("machine", "many_long_lists", 109), Tally::default());
    for _ in 0..setting("LONG_LISTS").unwrap_or(6000) {
        cases.run(|random| drop(small_list(random, &mut tally)));
    }
    finish(&cases, &tally, "long");
}

/// STEPPED_LISTS lists of many calls, each a call at a time too: the handle is compared after every call.
#[test]
#[ignore = "minutes; docs/ROBUSTNESS.md"]
fn many_stepped_lists() {
    let (mut cases, mut tally) = (Cases::new("machine", "many_stepped_lists", 110), Tally::default());
    for _ in 0..setting("STEPPED_LISTS").unwrap_or(2000) {
        cases.run(|random| small_list(random, &mut tally).compare_steps());
    }
    finish(&cases, &tally, "stepped");
}

// ---- examples, with their answers worked out by hand

/// What calls tell after the strip's bits were added one by one under a capacity, with an image of 560 bytes.
fn after(capacity: u64, text: &str, calls: &[(Opcode, [u64; 3])]) -> Vec<Values> {
    let adds: Vec<_> = text.bytes().map(|c| (Push, [u64::from(c - b'0'), 0, 0])).collect();
    let script = script(&[&adds, calls].concat());
    let counters = vec![7; counter_count(capacity)];
    let mut buffers = Buffers::new(&vec![7; word_count(capacity)], &counters, &[7; 560]);
    let (run, answers) = buffers.execute(&script, capacity, 0, 4 + 3 * (script.len() / 4));
    assert_eq!(run as usize, script.len() / 4);
    answers[4 + 3 * text.len()..].chunks(3).map(values).collect()
}

#[test]
fn examples() {
    let a = "01101101010101110";
    let one = |value: u64| Ok((value, 0));
    // P1, P2, P4, P5
    let counts = [(Rank, [1, 8, 0]), (Rank, [1, 7, 0]), (Rank, [1, 17, 0]), (Rank, [1, 18, 0])];
    assert_eq!(after(512, a, &counts), [one(5), one(4), one(10), Err(Position)]);
    let finds = [(Select, [1, 7, 0]), (Select, [1, 9, 0]), (Select, [1, 10, 0])];
    assert_eq!(after(512, a, &finds), [one(13), one(15), Err(NotFound)]);
    // P3, P8
    let turns = [(Flip, [3, 0, 0]), (Flip, [6, 0, 0]), (Rank, [1, 8, 0]), (Select, [1, 7, 0])];
    assert_eq!(after(512, a, &turns), [Ok((1, 15)), Ok((1, 15)), one(7), one(9)]);
    // P6
    assert_eq!(after(512, "", &[(Rank, [0; 3]), (Select, [0; 3])]), [one(0), Err(NotFound)]);
    // P9, P10
    assert_eq!(after(32_768, &"1".repeat(32_768), &[(Flip, [32_767, 0, 0])]), [Ok((0, 1))]);
    assert_eq!(after(33_280, &"1".repeat(33_280), &[(Flip, [32_768, 0, 0])]), [Ok((0, 29))]);
    // P11
    for (capacity, counters) in COUNTERS {
        assert_eq!(after(capacity, "", &[(Create, [capacity, 0, 0])]), [one(counters as u64)]);
    }
    // P12, and the readings of its row
    let rows = [(Freeze, [3, 0, 0]), (Inspect, [0; 3]), (RowRank, [3, 1, 4]), (RowSelect, [3, 1, 1])];
    assert_eq!(after(512, "01010", &rows), [one(1), one(1), one(2), one(3)]);
    let rows = [(Freeze, [3, 0, 0]), (RowGet, [3, 3, 0]), (Freeze, [3, 0, 0]), (Freeze, [4, 0, 0])];
    assert_eq!(after(512, "01010", &rows), [one(1), one(1), Err(LabelPresent), Err(NoRoom)]);
}
