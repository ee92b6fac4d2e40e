//! One call of a script on any handle and any buffers: records that fit or not, images with sound chains or not, rows right
//! or wrong. Where the outcome is fixed it is compared whole; where it is free it is held to its bounds. Inspect and the
//! queries are asked of the same images.
use strip_tests::borders::{BAD_CAPACITIES, FAR, LARGEST, ONE_LEVEL, THREE_LEVELS, TWO_LEVELS, WIDE};
use strip_tests::call::{Call, Opcode, CALLS, OPCODES};
use strip_tests::cases::{at_call, Cases};
use strip_tests::draw::{self, Scene};
use strip_tests::image::inspect;
use strip_tests::layout;
use strip_tests::model::{self, Strip};
use strip_tests::paper::Frozen;
use strip_tests::query::QUERIES;
use strip_tests::random::Random;
use strip_tests::record::UNTOUCHED;
use strip_tests::refusal::{values, Refusal, Values};
use strip_tests::script::Buffers;
use strip_tests::tally::Tally;
use strip_tests::Handle;
use Opcode::*;
use Refusal::*;

/// The refusals that a call can meet with its outcome fixed, in the order of their numbers.
fn refusals(opcode: Opcode) -> &'static [Refusal] {
    match opcode {
        Create => &[BadHandle, WordCount, CounterCount],
        Push => &[BadHandle, WordCount, CounterCount, Full, BadValue],
        Flip => &[BadHandle, WordCount, CounterCount, Position, Unfit],
        Truncate => &[BadHandle, WordCount, CounterCount, Position],
        Fill => &[BadHandle, WordCount, CounterCount, Position, Span, BadValue],
        Get => &[BadHandle, WordCount, Position],
        Rank => &[BadHandle, WordCount, CounterCount, Position, BadValue],
        Select => &[BadHandle, WordCount, CounterCount, NotFound, BadValue],
        Successor | Predecessor => &[BadHandle, WordCount, Position, NotFound, BadValue],
        Verify => &[BadHandle, WordCount, CounterCount, Unfit],
        Clear => &[NoRoom],
        Freeze => &[BadHandle, WordCount, Unsound, BadLabel, LabelPresent, NoRoom],
        Inspect => &[Unsound, WrongRow],
        RowRank => &[Position, BadValue, Unsound, BadLabel, LabelAbsent],
        RowSelect => &[NotFound, BadValue, Unsound, BadLabel, LabelAbsent],
        RowGet => &[Position, Unsound, BadLabel, LabelAbsent],
    }
}

/// Whether the outcome of a call can be free: on a record that does not fit, or on a wrong row.
fn can_be_free(opcode: Opcode) -> bool {
    matches!(opcode, Push | Flip | Rank | Select | RowRank | RowSelect)
}

// ---- states

/// A handle and what is lent.
#[derive(Clone, PartialEq)]
struct State {
    handle: Handle,
    words: Vec<u64>,
    counters: Vec<u32>,
    image: Vec<u8>,
}

impl State {
    /// The strip under the handle: the first bits of the words.
    fn strip(&self) -> Strip {
        let bits = (0..self.handle.length).map(|p| self.bit(p)).collect();
        Strip::new(self.handle.capacity, bits)
    }

    /// Words and counters laid afresh from a strip, under its handle.
    fn lay(&mut self, strip: &Strip) {
        self.handle = strip.handle();
        self.words = strip.words();
        self.counters = strip.counters();
    }

    /// A record of the right lengths fits when it is laid afresh from its strip and the total is its ones.
    fn fits(&self) -> bool {
        let strip = self.strip();
        strip.handle() == self.handle && strip.words() == self.words && strip.counters() == self.counters
    }

    /// The bit at a position.
    fn bit(&self, p: u64) -> bool {
        self.words[p as usize / 64] >> (p % 64) & 1 == 1
    }

    /// How many words and counters are lent.
    fn sizes(&self) -> (usize, usize) {
        (self.words.len(), self.counters.len())
    }

    /// 1, 2, and 3 where counters are taken.
    fn check(&self, counted: bool) -> Result<(), Refusal> {
        model::check(self.handle, self.words.len(), counted.then_some(self.counters.len()))
    }

    /// Runs a call: what it tells, and the state that it leaves.
    fn step(&self, call: Call) -> (Values, State) {
        let mut buffers = Buffers::new(&self.words, &self.counters, &self.image);
        let out = buffers.step(call, self.handle, 8);
        assert!(out[6..].iter().all(|number| *number == UNTOUCHED), "{call:?} wrote past the six numbers");
        let (words, counters, image) =
            (buffers.words().to_vec(), buffers.counters().to_vec(), buffers.image().to_vec());
        (values(&out), State { handle: Handle::told(&out), words, counters, image })
    }

    /// Runs it with room for fewer than six numbers, and asserts that nothing happens.
    fn idle(&self, call: Call, room: usize) {
        let mut buffers = Buffers::new(&self.words, &self.counters, &self.image);
        let out = buffers.step(call, self.handle, room);
        assert!(out.iter().all(|number| *number == UNTOUCHED), "{call:?} wrote to {room} numbers");
        assert!(buffers.words() == self.words && buffers.counters() == self.counters, "{call:?} changed the record");
        assert!(buffers.image() == self.image, "{call:?} changed the image");
    }
}

// ---- what a call owes

/// The outcome, where it is fixed: what is told, and the state left.
type Owed = Option<(Values, State)>;

fn owed(before: &State, call: Call) -> Owed {
    let mut after = before.clone();
    let one = |value| (value, 0);
    let told = match call.opcode() {
        Clear => layout::clear(&mut after.image).map(one),
        Freeze => {
            let bits = model::bits_of(&before.words);
            layout::freeze(before.handle, &bits, &mut after.image, call.x).map(one)
        }
        Inspect => layout::inspect(&before.image).map(one),
        RowRank | RowSelect | RowGet => on_row(before, call)?,
        Create => create(&mut after, call),
        opcode => match before.check(opcode.takes_counters()) {
            Ok(()) => on_strip(&mut after, call)?,
            Err(refusal) => Err(refusal),
        },
    };
    Some((told, after))
}

/// lay(capacity), whatever the handle and the record.
fn create(after: &mut State, call: Call) -> Values {
    let mut strip = Strip::new(0, Vec::new());
    let told = strip.step(after.sizes(), call)?;
    after.lay(&strip);
    Ok(told)
}

/// A row reading: 10, 11, 14, its own; of a wrong row count and find are free, but for a k at or past its length.
fn on_row(before: &State, call: Call) -> Option<Values> {
    let row = match layout::row(&before.image, call.x) {
        Ok(row) => row,
        Err(refusal) => return Some(Err(refusal)),
    };
    let told = model::on_row(&row.bits, call);
    let free = match call.opcode() {
        RowRank => told.is_ok(),
        RowSelect => told != Err(BadValue) && call.z < model::length(&row.bits),
        _ => false,
    };
    (row.right || !free).then_some(told)
}

/// A call from add to check, after 1 to 3; on a record that does not fit add, turn, count and find are free, but for a find's 6
/// and a turn's 9, which length and total decide.
fn on_strip(after: &mut State, call: Call) -> Option<Values> {
    let mut strip = after.strip();
    let (opcode, h) = (call.opcode(), after.handle);
    let told = strip.step(after.sizes(), call);
    let free = match opcode {
        Push | Rank => told.is_ok(),
        // the number of the bit's own value is one less afterwards
        Flip if told.is_ok() && h.number_of(after.bit(call.x)) == 0 => return Some(Err(Unfit)),
        Flip => told.is_ok(),
        Select if told != Err(BadValue) && call.y >= h.number_of(call.x == 1) => return Some(Err(NotFound)),
        Select => told != Err(BadValue),
        _ => false,
    };
    if (free || opcode == Verify) && !after.fits() {
        return (opcode == Verify).then_some(Err(Unfit));
    }
    if told.is_ok() && opcode.changes_strip() {
        after.lay(&strip);
    }
    Some(told)
}

/// The bounds of an outcome that is free.
fn within(before: &State, call: Call, told: Values, after: &State) -> bool {
    let below = |n: u64| told.is_ok_and(|(first, second)| first < n && second == 0);
    match call.opcode() {
        Push | Flip => near(before, call, told, after),
        Rank => after == before && (told == Err(Unfit) || below(call.y + 1)),
        Select => after == before && (told == Err(Unfit) || below(before.handle.length)),
        RowRank => after == before && (told == Err(WrongRow) || below(call.z + 1)),
        RowSelect => {
            let length = layout::row(&before.image, call.x).map_or(0, |row| model::length(&row.bits));
            after == before && (told == Err(NotFound) || told == Err(WrongRow) || below(length))
        }
        _ => false,
    }
}

/// Add and turn on a record that does not fit: the total moved with the bit, no bit changed but the stroke's, no counter that
/// does not count it, and at most 45 told.
fn near(before: &State, call: Call, told: Values, after: &State) -> bool {
    let Handle { capacity, length, total } = before.handle;
    let adds = call.opcode() == Push;
    let p = if adds { length } else { call.x };
    let word = p as usize / 64;
    let weight = 1 << (p % 64);
    let turned = !before.bit(p);
    let (bit, first, grown) = if adds { (call.x == 1, length, 1) } else { (turned, u64::from(turned), 0) };
    let total = if bit { total + 1 } else { total - u64::from(!adds) };
    let handle = Handle { capacity, length: length + grown, total };
    let mut wanted = State { handle, counters: after.counters.clone(), ..before.clone() };
    wanted.words[word] = if bit { wanted.words[word] | weight } else { wanted.words[word] & !weight };
    let counting = model::counting(capacity, p);
    let counted = |x: usize| after.counters[x] == before.counters[x] || counting.contains(&x);
    *after == wanted
        && (0..before.counters.len()).all(counted)
        && told.is_ok_and(|(value, number)| value == first && number <= 45)
}

/// What calls told with their outcome fixed, and free.
#[derive(Default)]
struct Tallies {
    fixed: Tally,
    free: Tally,
}

impl Tallies {
    fn print(&self, what: &str) {
        self.fixed.print(&format!("any state, {what}, fixed"));
        self.free.print(&format!("any state, {what}, free"));
    }

    /// Asserts that with its outcome fixed each call and query told all that it can, and that each call met what leaves it
    /// free.
    fn finish(&self, what: &str) {
        self.fixed.expect_queries(what);
        for opcode in OPCODES {
            self.fixed.expect(opcode, refusals(opcode), what);
            assert_eq!(self.free.made(opcode), can_be_free(opcode), "{what}: {} free", opcode.name());
        }
        self.print(what);
    }
}

/// Runs a call, holds it to what it owes, and gives the state that it leaves.
fn hold(before: &State, call: Call, tally: &mut Tallies) -> State {
    let (told, after) = before.step(call);
    let name = call.opcode().name();
    match owed(before, call) {
        Some((wanted, left)) => {
            assert_eq!(told, wanted, "{name} {call:?} under {:?}", before.handle);
            assert_eq!(after.handle, left.handle, "{name} {call:?} under {:?}", before.handle);
            assert!(after == left, "buffers after {name} {call:?} under {:?}", before.handle);
            tally.fixed.note(call, told);
        }
        None => {
            assert!(within(before, call, told, &after), "{name} {call:?} under {:?}: {told:?}", before.handle);
            tally.free.note(call, told);
        }
    }
    after
}

// ---- damages

/// A fitting record under a capacity, and an image with these rows.
fn sound(random: &mut Random, capacity: u64, rows: &[(usize, u64, Vec<bool>)]) -> State {
    let length = [0, capacity, capacity - random.number_below(70), random.number_below(capacity + 1)][random.below(4)];
    let share = [0, 3, 500, 997, 1000][random.below(5)];
    let bits = random.bits(length, share);
    let image = layout::image(rows, random.below(80));
    let strip = Strip::new(capacity, bits);
    State { handle: strip.handle(), words: strip.words(), counters: strip.counters(), image }
}

/// The record: bits past the length, bits below it, counters.
fn damage_record(random: &mut Random, state: &mut State) {
    let Handle { capacity, length, .. } = state.handle;
    for _ in 0..1 + random.below(3) {
        let x = random.below(state.counters.len());
        match random.below(10) {
            0..=2 if length < capacity => {
                let p = length + random.number_below(capacity - length);
                state.words[p as usize / 64] ^= 1 << (p % 64);
            }
            0..=2 => state.words[random.below(model::word_count(capacity))] ^= 1 << random.below(64),
            3 => state.words.fill_with(|| random.number()),
            4 => state.counters[x] = state.counters[x].wrapping_add(1),
            5 => state.counters[x] = state.counters[x].wrapping_sub(1),
            6 => state.counters[x] = random.number() as u32,
            7 => state.counters.fill_with(|| random.number() as u32),
            8 => state.counters.fill_with(|| random.below(40_000) as u32),
            _ => state.counters.fill([0, u32::MAX][random.below(2)]),
        }
    }
}

/// The total: wrong by one, none, all, any up to the length, or above it.
fn damage_total(random: &mut Random, handle: &mut Handle) {
    let Handle { length, total, .. } = *handle;
    let drawn = random.number_below(length + 1);
    let good = [total.saturating_sub(1), (total + 1).min(length), 0, length, drawn];
    let above = [length + 1, WIDE + total, WIDE, 1 << 63, u64::MAX];
    handle.total = if random.below(4) == 0 { above[random.below(5)] } else { good[random.below(5)] };
}

/// The handle and the numbers of words and counters: a capacity not allowed, a length above it or another, other numbers.
fn damage_lengths(random: &mut Random, state: &mut State) {
    let Handle { capacity, length, total } = state.handle;
    let (words, counters) = state.sizes();
    match random.below(8) {
        0 => {
            let near = [capacity + 1, capacity - 1, WIDE + capacity];
            let all = [&near[..], &BAD_CAPACITIES].concat();
            state.handle.capacity = all[random.below(all.len())];
        }
        1 => {
            let all = [&[capacity + 1, WIDE + length][..], &FAR].concat();
            state.handle.length = all[random.below(all.len())];
        }
        2 => {
            state.handle.length = random.number_below(capacity + 1);
            state.handle.total = total.min(state.handle.length);
        }
        3 => state.handle.capacity = [capacity + 512, 2 * capacity, TWO_LEVELS, LARGEST][random.below(4)],
        4 => state.words.resize([0, words - 1, words + 1, 2 * words][random.below(4)], 5),
        5 => state.counters.resize([0, counters - 1, counters + 1, counters + 72][random.below(4)], 5),
        6 => {
            state.words.resize(words + random.below(2), 5);
            state.counters.resize(counters + 1, 5);
        }
        _ => state.handle.length = capacity,
    }
}

/// The image: a number of a record, a row, a byte of the header, any byte; cut off; or all anew.
fn damage_image(random: &mut Random, image: &mut Vec<u8>) {
    let places = layout::chain(image).unwrap_or_default();
    let at = if places.is_empty() { 0 } else { places[random.below(places.len())] };
    match random.below(16) {
        0..=3 if at > 0 => damage_number(random, image, at),
        4..=9 if at > 0 => damage_row(random, image, at),
        10 | 11 => image.truncate([random.below(17), random.below(image.len() + 1)][random.below(2)]),
        12 => image.fill_with(|| (random.below(4) * (random.below(6) / 5)) as u8),
        kind => {
            let byte = random.below(if kind == 13 { 16 } else { image.len() });
            image[byte] ^= 1 << random.below(8);
        }
    }
}

/// One of the four numbers of the record at a place: a bit flipped, one more, one less, or another.
fn damage_number(random: &mut Random, image: &mut [u8], at: usize) {
    let field = at + 4 * random.below(4);
    let was = layout::number(image, field);
    let others = [was ^ 1 << random.below(32), was + 1, was.wrapping_sub(1), random.number_below(70)];
    layout::store(image, field, others[random.below(4)]);
}

/// The row at a place: its ones, entries, bits or padding.
fn damage_row(random: &mut Random, image: &mut [u8], at: usize) {
    let length = layout::number(image, at + 8) as usize;
    let (entries, bits) = (16 * length.div_ceil(4096), 512 * length.div_ceil(4096));
    let start = at + 16 + entries;
    for _ in 0..1 + random.below(2) {
        let byte = match random.below(5) {
            0 if length > 0 => at + 16 + random.below(entries),
            1 if length > 0 => start + random.below(length.div_ceil(8)),
            2 if length > 0 => start + (length / 8 + random.below(512)).min(bits - 1),
            3 => {
                image[at + 16..start].fill_with(|| random.number() as u8);
                at + 12
            }
            _ => at + 12 + random.below(4),
        };
        image[byte] ^= 1 << random.below(8);
    }
}

/// Up to four rows with gaps; a label is seldom repeated or out of range.
fn some_rows(random: &mut Random) -> Vec<(usize, u64, Vec<bool>)> {
    let mut rows = Vec::new();
    for number in 0..random.number_below(5) {
        let length = [0, 1 + random.number_below(700), 4096, random.number_below(9000)][random.below(4)];
        let share = [3, 500, 990][random.below(3)];
        let label = if random.below(40) == 0 { [0, 65, 3][random.below(3)] } else { 3 + 15 * number };
        rows.push((random.below(3), label, random.bits(length, share)));
    }
    rows
}

/// A state: a fitting record and an image of rows, mostly damaged; and the rows that were written.
fn some_state(random: &mut Random, capacity: u64) -> (State, Vec<Frozen>) {
    let rows = some_rows(random);
    let mut state = sound(random, capacity, &rows);
    if random.below(4) > 0 {
        damage_record(random, &mut state);
    }
    if random.below(4) > 0 {
        damage_image(random, &mut state.image);
    }
    if random.below(4) == 0 {
        damage_lengths(random, &mut state);
    }
    if state.handle.length <= LARGEST && random.below(3) == 0 {
        damage_total(random, &mut state.handle);
    }
    (state, rows.into_iter().map(|(_, label, bits)| (label, bits)).collect())
}

/// Inspect, and each query twice, of drawn arguments, on an image in which these rows were written.
fn ask(random: &mut Random, (capacity, image): (u64, &[u8]), rows: &[Frozen], tally: &mut Tallies) {
    assert_eq!(inspect(image), layout::inspect(image));
    let scene = Scene { capacity, strip: &[], rows };
    for query in [QUERIES, QUERIES].concat() {
        let query = draw::query(random, query, &scene);
        tally.fixed.note_query(query, query.compare(image));
    }
}

/// A walk of calls from a state: at times the next call goes on with what the one before left. Inspect and the
/// queries are asked of the first image and of the last.
fn walk(random: &mut Random, capacity: u64, steps: usize, tally: &mut Tallies) {
    let (mut state, rows) = some_state(random, capacity);
    let first = state.image.clone();
    for number in 0..steps {
        at_call(number);
        let strip = if state.check(false).is_ok() { state.strip().bits().to_vec() } else { Vec::new() };
        let scene = Scene { capacity: state.handle.capacity, strip: &strip, rows: &rows };
        let opcode = OPCODES[random.below(CALLS)];
        let call = draw::call(random, opcode, &scene);
        state.idle(call, random.below(6));
        let after = hold(&state, call, tally);
        if random.below(8) == 0 {
            state = after;
        }
    }
    for image in [&first, &state.image] {
        ask(random, (capacity, image), &rows, tally);
    }
}

#[test]
fn any_state_at_one_level() {
    let (mut cases, mut tally) = (Cases::new("step", "any_state_at_one_level", 201), Tallies::default());
    for (capacity, walks) in [(512, 3500), (1024, 3500), (4608, 3500), (ONE_LEVEL, 250)] {
        for _ in 0..walks {
            cases.run(|random| walk(random, capacity, 40, &mut tally));
        }
    }
    if cases.all() {
        tally.finish(&format!("one level, seed {}", cases.seed()));
    }
}

#[test]
fn any_state_at_two_levels() {
    let (mut cases, mut tally) = (Cases::new("step", "any_state_at_two_levels", 202), Tallies::default());
    for _ in 0..800 {
        cases.run(|random| walk(random, TWO_LEVELS, 40, &mut tally));
    }
    if cases.all() {
        tally.finish(&format!("two levels, seed {}", cases.seed()));
    }
}

#[test]
fn any_state_at_three_levels() {
    let (mut cases, mut tally) = (Cases::new("step", "any_state_at_three_levels", 203), Tallies::default());
    for _ in 0..40 {
        cases.run(|random| walk(random, THREE_LEVELS, 20, &mut tally));
    }
    tally.print(&format!("three levels, seed {}", cases.seed()));
}
