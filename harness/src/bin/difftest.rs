//! The library against the second program on random inputs, and the check against walks counted out. `difftest SEED INPUTS`.

use harness::calls::bad_places::{compare_bad_places, ToldPlaces, PLACES};
use harness::calls::bits::{compare_bits, ToldBits, BITS};
use harness::calls::map::{compare_map, ToldMap, MAPS};
use harness::calls::records::{compare_records, ToldRecords, RECORDS};
use harness::calls::{compare, compare_margin, Told, ToldMargin};
use harness::calls::{BADBIT, CALLS, CARDS, FIELDS, MAPPICK, MARGIN, MARGINS, NIST, P1, WITHIN};
use harness::hex;
use harness::inputs::{sound_form, Input};
use harness::random::Random;
use reference::period::{least_period, opposite};
use std::panic::catch_unwind;
use std::process::exit;
use std::sync::atomic::{AtomicUsize, Ordering};
use tiedraw::{Refusal, MOST_BAD_PLACES, MOST_SHOVELS, MOST_TAKEN};

/// inputs of one random stream
const BLOCK: usize = 1000;
/// inputs of the margin beside each block: the second program takes long for them
const OF_MARGIN: usize = 125;
/// inputs of the records beside each block
const OF_RECORDS: usize = 250;
/// inputs of the counts of bits beside each block
const OF_BITS: usize = 250;
/// inputs by the map beside each block
const OF_MAP: usize = 200;
/// inputs of bad places beside each block
const OF_BAD_PLACES: usize = 100;
/// each number of bad places up to this must come up
const FEW_PLACES: usize = 8;
/// The sizes whose walks are counted out, and cards of each: up to 12 bits of a state with two to four words, up to 16 with
/// five to eight.
const WALKS: [(u8, u8, usize); 15] = [
    (2, 2, 3000),
    (2, 3, 3000),
    (2, 4, 3000),
    (2, 5, 3000),
    (2, 6, 3000),
    (3, 2, 3000),
    (3, 3, 3000),
    (3, 4, 3000),
    (4, 2, 3000),
    (4, 3, 3000),
    (5, 2, 1000),
    (5, 3, 300),
    (6, 2, 600),
    (7, 2, 300),
    (8, 2, 200),
];
/// cards of one random stream
const OF_WALKS: usize = 100;

/// the last refusal's number
const REFUSALS: usize = 26;

/// The refusals that each call has, 0 for none: all of them must come up.
const TELLS: [&[usize]; CALLS.len()] = [
    &[0, 1, 2, 3, 4, 5, 6, 7, 8, 9],
    &[0, 1, 2, 3, 4, 5, 6, 7, 8, 9, 10, 11],
    &[0, 1, 2, 3, 4, 5, 6, 7, 8, 9, 10, 11],
    &[0, 1, 2, 3, 4, 5, 6, 7, 8, 9, 10, 11],
    &[0, 1, 2, 3, 4, 5, 6, 7, 8, 9, 10, 11, 17],
    &[0, 1, 2, 3, 4, 5, 6, 7, 8, 9, 10, 11, 12, 13, 14, 15, 18],
    &[0, 2, 6, 7, 8, 9, 16],
    &[0, 1, 2, 3, 4, 5, 6],
    &[0, 1, 2, 3, 4, 5, 6, 7, 8, 9, 10, 11, 12, 13, 14, 15, 18, 19],
    &[0, 1, 2, 3, 4, 5, 6, 7, 8, 9, 10, 11, 12, 13, 14, 15, 16, 18],
    &[0, 20],
    &[0, 20, 21],
    &[0, 1, 2, 3, 4, 5, 6, 7, 8, 9, 22, 23, 24],
    &[0, 1, 2, 3, 4, 5, 6, 7, 8, 9, 10, 11, 12, 13, 14, 15, 18, 25],
    &[0, 12, 13, 14, 15, 25],
    &[0, 1, 2, 3, 4, 5, 6, 26],
];

/// The same on P1, of the calls that make steps.
const P1_TELLS: [(&str, &[usize]); 8] = [
    ("step", &[0, 10]),
    ("step_back", &[0, 10]),
    ("draw", &[0, 10]),
    ("fill", &[0, 10, 17]),
    ("pick", &[0, 10, 12, 13, 14, 15]),
    ("margin", &[0, 10, 12, 13, 14, 15, 19]),
    ("recpick", &[0, 10, 12, 13, 14, 15, 16]),
    ("mappick", &[0, 10, 12, 13, 14, 15, 25]),
];
/// once in so many calls at least they answer on P1 without a refusal
const P1_ONCE_IN: usize = 50;

/// For each call: answers, then refusals by their numbers.
type Answers = [[usize; REFUSALS + 1]; CALLS.len()];

/// How often each call told each refusal, how many picks passed over how many words, how many words were filled in, how many
/// margins, records, counts, inputs by the map and bad places there were of each kind, how many recorded picks with each number of
/// ties, and how many sets of bad places with each number of places.
#[derive(Default)]
struct Tally {
    told: [Answers; CARDS.len()],
    /// draws on P1 with one value changed, by the field
    changed: [usize; FIELDS.len()],
    /// without ties, then with 0 to MOST_TAKEN words passed over
    picks: [usize; MOST_TAKEN + 2],
    filled: usize,
    margins: [usize; MARGINS.len()],
    recorded: ByTies,
    /// those refused for their pages
    small_pages: ByTies,
    records: [usize; RECORDS.len()],
    /// pairs of records that differ in all but truck and shovel
    twins: usize,
    bits: [usize; BITS.len()],
    maps: [usize; MAPS.len()],
    places: [usize; PLACES.len()],
    by_count: ByCount,
}

/// Inputs by how many bad places they have, from 0 on: the first are those that are refused.
struct ByCount([usize; MOST_BAD_PLACES + 1]);

impl Default for ByCount {
    fn default() -> ByCount {
        ByCount([0; MOST_BAD_PLACES + 1])
    }
}

impl ByCount {
    /// How many numbers of places came up.
    fn different(&self) -> usize {
        self.0[1..].iter().filter(|&&inputs| inputs > 0).count()
    }

    /// A small number of places that never did.
    fn missing(&self) -> Option<usize> {
        (1..=FEW_PLACES).find(|&count| self.0[count] == 0)
    }
}

/// Recorded picks by how many shovels were equally near, from 1 on: the first are those without a tie.
struct ByTies([usize; MOST_SHOVELS]);

impl Default for ByTies {
    fn default() -> ByTies {
        ByTies([0; MOST_SHOVELS])
    }
}

impl ByTies {
    /// Without a tie, and with one.
    fn both(&self) -> [usize; 2] {
        let [without, with @ ..] = &self.0;
        [*without, with.iter().sum()]
    }

    /// A number of shovels, and so many picks, than which no other number has fewer.
    fn fewest(&self) -> (usize, usize) {
        let picks = self.0.iter().enumerate();
        let (place, &fewest) = picks.min_by_key(|&(_, picks)| picks).unwrap();
        (place + 1, fewest)
    }
}

/// The places of the calls in P1_TELLS, and what they tell.
fn p1_calls() -> impl Iterator<Item = (usize, &'static [usize])> {
    let place = |name| CALLS.iter().position(|call| *call == name);
    P1_TELLS
        .into_iter()
        .map(move |(name, tells)| (place(name).expect("a call"), tells))
}

/// Adds counts to sums, one by one.
fn add_up(sums: &mut [usize], counts: &[usize]) {
    for (sum, count) in sums.iter_mut().zip(counts) {
        *sum += count;
    }
}

impl Tally {
    fn add(&mut self, other: &Tally) {
        let sums = self.told.iter_mut().flatten();
        for (sums, counts) in sums.zip(other.told.iter().flatten()) {
            add_up(sums, counts);
        }
        add_up(&mut self.changed, &other.changed);
        add_up(&mut self.picks, &other.picks);
        self.filled += other.filled;
        add_up(&mut self.margins, &other.margins);
        add_up(&mut self.recorded.0, &other.recorded.0);
        add_up(&mut self.small_pages.0, &other.small_pages.0);
        add_up(&mut self.records, &other.records);
        self.twins += other.twins;
        add_up(&mut self.bits, &other.bits);
        add_up(&mut self.maps, &other.maps);
        add_up(&mut self.places, &other.places);
        add_up(&mut self.by_count.0, &other.by_count.0);
    }

    fn count_answer(&mut self, call: usize, refusal: u8, card: usize) {
        self.told[card][call][usize::from(refusal)] += 1;
    }

    fn count(&mut self, told: Told) {
        for (call, refusal) in told.refusals.into_iter().enumerate() {
            self.count_answer(call, refusal, told.cards[call]);
        }
        if let Some(field) = told.changed {
            self.changed[field] += 1;
        }
        if let Some(column) = told.pick {
            self.picks[column] += 1;
        }
        self.filled += told.filled;
    }

    fn count_margin(&mut self, told: ToldMargin) {
        self.count_answer(MARGIN, told.refusal, told.card);
        if let Some(column) = told.column {
            self.margins[column] += 1;
        }
    }

    fn count_records(&mut self, told: ToldRecords) {
        for (call, refusal, card) in told.answers {
            self.count_answer(call, refusal, card);
        }
        let picks = match told.small {
            false => &mut self.recorded,
            true => &mut self.small_pages,
        };
        if let Some(ties) = told.ties {
            picks.0[ties - 1] += 1;
        }
        for kind in told.kinds {
            self.records[kind] += 1;
        }
        self.twins += usize::from(told.twins);
    }

    fn count_bits(&mut self, told: ToldBits) {
        self.count_answer(NIST, told.refusal, told.card);
        add_up(&mut self.bits, &told.kinds.map(usize::from));
    }

    fn count_map(&mut self, told: ToldMap) {
        self.count_answer(MAPPICK, told.pick, told.card);
        self.count_answer(WITHIN, told.list, told.card);
        add_up(&mut self.maps, &told.kinds.map(usize::from));
    }

    fn count_places(&mut self, told: ToldPlaces) {
        self.count_answer(BADBIT, told.refusal, told.card);
        self.by_count.0[told.count] += 1;
        add_up(&mut self.places, &told.kinds.map(usize::from));
    }

    /// One of the refusals that a call never told on these cards.
    fn never_told(&self, card: usize, call: usize, tells: &[usize]) -> Option<String> {
        let answers = &self.told[card][call];
        let refusal = tells.iter().find(|&&refusal| answers[refusal] == 0)?;
        let (card, call) = (CARDS[card], CALLS[call]);
        Some(format!("{card}: {call} never told {refusal}"))
    }

    /// A refusal that a call never told, with either size of cards.
    fn untold(&self) -> Option<String> {
        let calls = TELLS.iter().enumerate();
        let mut others = (0..CARDS.len()).filter(|&card| card != P1);
        others.find_map(|card| {
            let mut calls = calls.clone();
            calls.find_map(|(call, tells)| self.never_told(card, call, tells))
        })
    }

    /// How often a call answered on P1 without a refusal, and how often it was made in all.
    fn on_p1(&self, call: usize) -> (usize, usize) {
        let made = self.told.iter().flat_map(|answers| answers[call]);
        (self.told[P1][call][0], made.sum())
    }

    /// A call that answered too seldom on P1.
    fn seldom_on_p1(&self, call: usize) -> Option<String> {
        let (answered, made) = self.on_p1(call);
        let seldom = answered * P1_ONCE_IN < made;
        seldom.then(|| format!("P1: {} answered {answered} of {made}", CALLS[call]))
    }

    /// A refusal that a call never told on P1, a call that answered too seldom on it, or a value that was never changed alone.
    fn missing_p1(&self) -> Option<String> {
        let untold = p1_calls().find_map(|(call, tells)| self.never_told(P1, call, tells));
        let seldom = p1_calls().find_map(|(call, _)| self.seldom_on_p1(call));
        let empty = self.changed.iter().position(|&draws| draws == 0);
        let unchanged = empty.map(|field| format!("no draw with another {}", FIELDS[field]));
        untold.or(seldom).or(unchanged)
    }

    /// A number of equals that no recorded pick had, a page too small for a tie or without one, a kind of record, or a pair that differs
    /// in all but truck and shovel.
    fn missing_record(&self) -> Option<String> {
        let (equals, fewest) = self.recorded.fewest();
        let no_pick = (fewest == 0).then(|| format!("no recorded pick of {equals} equals"));
        let no_page = self.small_pages.both().contains(&0);
        let no_page = no_page.then(|| "no page too small, of a tie or of none".to_string());
        let empty = self.records.iter().position(|&records| records == 0);
        let no_record = empty.map(|kind| format!("no record {}", RECORDS[kind]));
        let no_twins = (self.twins == 0).then(|| "no pair of records".to_string());
        no_pick.or(no_page).or(no_record).or(no_twins)
    }

    /// What never came up: a refusal of a call, a number of words passed over, a kind of margin, of counts, by the map or of bad places, or what
    /// P1 and records must have.
    fn missing(&self) -> Option<String> {
        let empty = self.picks.iter().position(|&picks| picks == 0);
        let no_pick = empty.map(|column| match column {
            0 => "every pick had ties".to_string(),
            _ => format!("no pick passed over {} words", column - 1),
        });
        let empty = self.margins.iter().position(|&margins| margins == 0);
        let no_margin = empty.map(|column| format!("no margin {}", MARGINS[column]));
        let no_record = self.missing_record();
        let empty = self.bits.iter().position(|&inputs| inputs == 0);
        let no_bits = empty.map(|kind| format!("no strip {}", BITS[kind]));
        let empty = self.maps.iter().position(|&inputs| inputs == 0);
        let no_map = empty.map(|kind| format!("no {}", MAPS[kind]));
        let empty = self.places.iter().position(|&inputs| inputs == 0);
        let no_places = empty.map(|kind| format!("no {}", PLACES[kind]));
        let no_count = self.by_count.missing();
        let no_count = no_count.map(|count| format!("never {count} bad places"));
        let missing = self.untold().or(self.missing_p1()).or(no_pick);
        let missing = missing.or(no_margin).or(no_record).or(no_bits);
        missing.or(no_map).or(no_places).or(no_count)
    }

    /// How many words all picks passed over.
    fn passed_over(&self) -> usize {
        let with_ties = self.picks[1..].iter().enumerate();
        with_ties.map(|(words, picks)| words * picks).sum()
    }
}

/// Runs the blocks on all cores. A difference is printed, and the run fails.
fn run_blocks<T: Send>(blocks: usize, work: impl Fn(usize) -> Result<T, String> + Sync) -> Vec<T> {
    let next = AtomicUsize::new(0);
    let worker = || {
        let mut results = Vec::new();
        loop {
            let block = next.fetch_add(1, Ordering::Relaxed);
            if block >= blocks {
                return results;
            }
            match work(block) {
                Ok(result) => results.push(result),
                Err(difference) => {
                    println!("DIFFERENCE in block {block}: {difference}");
                    exit(1);
                }
            }
        }
    };
    let cores = std::thread::available_parallelism().map_or(1, usize::from);
    std::thread::scope(|scope| {
        let workers: Vec<_> = (0..cores).map(|_| scope.spawn(worker)).collect();
        workers
            .into_iter()
            .flat_map(|worker| worker.join().unwrap())
            .collect()
    })
}

/// A comparison that prints the input also where one side breaks down.
fn told<T>(input: Input, compare: fn(&Input) -> Result<T, String>) -> Result<T, String> {
    catch_unwind(|| compare(&input)).unwrap_or_else(|_| Err(format!("broken down on {input:x?}")))
}

fn compare_block(seed: u64, block: usize) -> Result<Tally, String> {
    let mut random = Random::new(seed, block as u64);
    let mut tally = Tally::default();
    for _ in 0..BLOCK {
        tally.count(told(Input::random(&mut random), compare)?);
    }
    let mut random = Random::new(seed ^ 1 << 56, block as u64);
    for _ in 0..OF_MARGIN {
        tally.count_margin(told(Input::of_margin(&mut random), compare_margin)?);
    }
    let mut random = Random::new(seed ^ 1 << 57, block as u64);
    for _ in 0..OF_RECORDS {
        tally.count_records(told(Input::of_records(&mut random), compare_records)?);
    }
    let mut random = Random::new(seed ^ 1 << 58, block as u64);
    for _ in 0..OF_BITS {
        tally.count_bits(told(Input::of_bits(&mut random), compare_bits)?);
    }
    let mut random = Random::new(seed ^ 1 << 59, block as u64);
    for _ in 0..OF_MAP {
        tally.count_map(told(Input::of_map(&mut random), compare_map)?);
    }
    let mut random = Random::new(seed ^ 1 << 60, block as u64);
    for _ in 0..OF_BAD_PLACES {
        tally.count_places(told(Input::of_bad_places(&mut random), compare_bad_places)?);
    }
    Ok(tally)
}

/// Counts in columns of one width.
fn columns(counts: &[usize]) -> String {
    let counts: Vec<String> = counts.iter().map(|count| format!("{count:>6}")).collect();
    counts.join(" ")
}

fn print_answers(total: &Tally) {
    for (card, answers) in CARDS.iter().zip(&total.told) {
        println!("{card}: answers, then refusals 1 to {REFUSALS}:");
        for (name, sums) in CALLS.iter().zip(answers) {
            println!("{name:>9} {}", columns(sums));
        }
    }
    println!(
        "picks without ties, then with 0 to {MOST_TAKEN} words passed over, {} in all:",
        total.passed_over()
    );
    println!("{:>9} {}", "", columns(&total.picks));
    println!("margins lowered, raised, and firm of several shovels; then those with times below 200 and every amount tried:");
    println!("{:>9} {}", "", columns(&total.margins));
}

fn print_p1(total: &Tally) {
    let parts = p1_calls().map(|(call, _)| {
        let (answered, made) = total.on_p1(call);
        let part = 100.0 * answered as f64 / made as f64;
        format!("{} {answered} ({part:.1} %)", CALLS[call])
    });
    let parts: Vec<String> = parts.collect();
    println!("on P1 without a refusal, of all: {}", parts.join(", "));
    let fields = FIELDS.join(", ");
    println!("draws on P1 with one value changed, none refused: {fields}:");
    println!("{:>9} {}", "", columns(&total.changed));
}

fn print_records(total: &Tally) {
    println!("recorded picks without a tie and with one, the same with too small a page, and the fewest with one number of ties:");
    let (recorded, small_pages) = (total.recorded.both(), total.small_pages.both());
    let (_, fewest) = total.recorded.fewest();
    let picks = [&recorded[..], &small_pages, &[fewest]].concat();
    println!("{:>9} {}", "", columns(&picks));
    println!("records by their maps, 03, 07 and so on to 1f; then torn: no byte, bit 0 or 1 lacking, bit 5 to 7 standing, count below 2, above 8, too short, too long:");
    println!("{:>9} {}", "", columns(&total.records));
}

fn print_bits(total: &Tally) {
    println!("counts of no bits, of more zeros, as many, more ones, farther forward, backward, of one run, of neighbours that all differ, on a page with just room, with more, of 16,384 words of 32 bits; then refused for one word, one bit and one byte:");
    println!("{:>9} {}", "", columns(&total.bits));
}

fn print_maps(total: &Tally) {
    println!("by the map, picks of one nearest, of equals at different places, at one, of 64, with more than 32 bits, from corner to corner; lists of none, some, all, 64, with one on the edge, just outside, of radius 0 and 3000000; then off the map by truck, shovel, the least number, radii of -1 and 3000001; then uneven by xs, ys, both alike and all three:");
    println!("{:>9} {}", "", columns(&total.maps));
}

fn print_places(total: &Tally) {
    println!("bad places of one place, the last of 256, one behind a repeated entry or a swap; repeated entries, the last two of 256, swaps, swaps before repeated entries, after them, the same of one first place; cycles of three, of four to 127, of 128, of several shortest with place 0 and without; beside what 8 or 9 refuses, rings beside it, absent ones; then of 2 to 8 words:");
    println!("{:>9} {}", "", columns(&total.places));
}

fn compare_inputs(seed: u64, inputs: usize) {
    let blocks = inputs.div_ceil(BLOCK);
    let mut total = Tally::default();
    for tally in run_blocks(blocks, |block| compare_block(seed, block)) {
        total.add(&tally);
    }
    println!(
        "{} inputs, each through {MARGIN} calls, and {} of the margin: no difference; {} words filled in",
        blocks * BLOCK,
        blocks * OF_MARGIN,
        total.filled
    );
    let [_, ties] = total.recorded.both();
    println!(
        "{} recorded picks, and as many records to desk and cab: no difference; {ties} records read back and picked again, {} pairs alike to cabs",
        blocks * OF_RECORDS,
        total.twins
    );
    println!(
        "{} strips whose bits were counted: no difference; also read back, reversed and flipped",
        blocks * OF_BITS
    );
    println!(
        "{} picks by the map and as many lists within a radius: no difference; also in another order, turned, and as timed picks",
        blocks * OF_MAP
    );
    println!(
        "{} cards whose bad places were asked for: no difference; also completed, mended, and as the check says; {} different counts of places",
        blocks * OF_BAD_PLACES,
        total.by_count.different()
    );
    print_answers(&total);
    print_p1(&total);
    print_records(&total);
    print_bits(&total);
    print_maps(&total);
    print_places(&total);
    if let Some(missing) = total.missing() {
        println!("{missing}: too few inputs");
        exit(1);
    }
}

/// Whether the walk from a state by these steps brings up every state once and then returns, counted out.
fn covers(width: u8, start: &[u32], step: impl Fn(&mut Vec<u32>)) -> bool {
    let number = |state: &[u32]| state.iter().fold(0, |sum, &x| sum << width | x as usize);
    let mut seen = vec![false; 1 << (usize::from(width) * start.len())];
    let mut state = start.to_vec();
    for _ in 0..seen.len() {
        if std::mem::replace(&mut seen[number(&state)], true) {
            return false;
        }
        step(&mut state);
    }
    state == start
}

/// The verdict on a card, held to its walk from a start by the second program's step, which is the papers' definition; with
/// more than four words an accepted card's walk by the library's step must cover as well.
fn walk(card: &reference::Card, start: &[u32]) -> Result<u8, String> {
    let bytes = reference::encode(card);
    let verdict = tiedraw::check(&bytes).map_or_else(Refusal::number, |()| 0);
    let by_definition = |state: &mut Vec<u32>| *state = reference::step(card, state);
    let by_library = |state: &mut Vec<u32>| tiedraw::step(&bytes, state).expect("an accepted card");
    let mut agrees = (verdict == 0) == covers(card.width, start, by_definition);
    if verdict == 0 && card.words > 4 {
        agrees &= covers(card.width, start, by_library);
    }
    let differs = || {
        let card = hex(&bytes);
        format!("card {card}: verdict {verdict}, but the walk from {start:x?} says otherwise")
    };
    agrees.then_some(verdict).ok_or_else(differs)
}

/// Whether the words of an accepted card repeat before all N states have passed, counted out on N words that the library fills
/// in. They must do so exactly where each state has the word of its opposite, the state N/2 steps on: what is proved for document
/// 02, Six.
fn repeats_early(card: &reference::Card, start: &[u32]) -> Result<bool, String> {
    let bytes = reference::encode(card);
    let bits = u32::from(card.width) * u32::from(card.words);
    let mut words = vec![0; 1 << bits];
    let mut state = start.to_vec();
    tiedraw::fill(&bytes, &mut state, &mut words, 0, 1 << bits).expect("an accepted card");
    let early = least_period(&words) < words.len();
    let word_of = |number: u32, k: u8| number >> (k * card.width) & reference::mask(card.width);
    let alike = (0..1 << bits).all(|number| {
        let state: Vec<u32> = (0..card.words).map(|k| word_of(number, k)).collect();
        reference::word(card, &state) == reference::word(card, &opposite(card, &state))
    });
    let differs = || {
        let card = hex(&bytes);
        format!("card {card}: from {start:x?} to {state:x?}, early {early}, but opposite states alike {alike}")
    };
    (early == alike && state == start)
        .then_some(early)
        .ok_or_else(differs)
}

/// How often each verdict was told on some cards of one size, each walked from a random start; and how many of the accepted ones
/// repeat their words early.
fn walk_block(
    seed: u64,
    block: usize,
    words: u8,
    width: u8,
) -> Result<([usize; 10], usize), String> {
    let mut random = Random::new(
        seed ^ u64::from(words) << 40 ^ u64::from(width) << 48,
        block as u64,
    );
    let mut verdicts = [0; 10];
    let mut early = 0;
    for _ in 0..OF_WALKS {
        let card = sound_form(words, width, &mut random);
        let start: Vec<u32> = (0..words)
            .map(|_| random.word() as u32 & reference::mask(width))
            .collect();
        let verdict = walk(&card, &start)?;
        verdicts[usize::from(verdict)] += 1;
        early += usize::from(verdict == 0 && repeats_early(&card, &start)?);
    }
    Ok((verdicts, early))
}

fn count_out_walks(seed: u64) {
    println!("walks of cards of sound form counted out:");
    let mut early_ones = 0;
    for (words, width, cards) in WALKS {
        let mut verdicts = [0; 10];
        let mut early = 0;
        for (some, some_early) in run_blocks(cards / OF_WALKS, |block| {
            walk_block(seed, block, words, width)
        }) {
            add_up(&mut verdicts, &some);
            early += some_early;
        }
        let [accepted, .., ring, even, powers] = verdicts;
        println!(
            "{words} words of {width} bits: {accepted} accepted, all of full length, {early} with words that repeat early; {ring}, {even} and {powers} refused by 7, 8 and 9, none of full length"
        );
        early_ones += early;
        if [accepted, ring, even, powers].contains(&0) {
            println!("a verdict never came up");
            exit(1);
        }
    }
    if early_ones == 0 {
        println!("no card repeated its words early");
        exit(1);
    }
}

fn main() {
    let numbers: Vec<u64> = std::env::args()
        .skip(1)
        .map_while(|text| text.parse().ok())
        .collect();
    let [seed, inputs] = numbers[..] else {
        eprintln!("difftest SEED INPUTS");
        exit(2)
    };
    println!("seed {seed}");
    compare_inputs(seed, inputs as usize);
    count_out_walks(seed);
}
