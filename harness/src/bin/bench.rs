//! How long the library's calls take, beside Rust on the same machine in the same run. Prints nanoseconds a call, or a word of a fill, a table by numbers of words,
//! one of ten million words of TSC-1, and ratios.

use harness::bit_subjects::counts;
use harness::by_hand::gates::fill_by_gates;
use harness::by_hand::{self, fill_by_columns, fill_by_joined_columns, fill_by_masks, Fill, State};
use harness::jitter::steady;
use harness::map_subjects::{lists, picks, spread, tied};
use harness::record_subjects::{cabs, desks, recorded_pick};
use harness::subjects::{check, draw, fill, fill_by_hand, step, step_back, SPAN};
use harness::table_subjects::{self, bad_places};
use harness::ten_million;
use harness::timing::{figure, measure, within, Subject};
use reference::{accept, Card};
use std::hint::black_box;
use std::process::exit;
use tiedraw::Shovel;

const STEPS: usize = 10_000_000;
const CALLS: usize = 1_000_000;
/// margins of 5 shovels, and of 64
const MARGINS: usize = 100_000;
const LONG_MARGINS: usize = 10_000;
/// counts of bits
const COUNTS: usize = 1_000;
/// lists within a radius
const LISTS: usize = 100_000;
/// bad places
const BAD_PLACES: usize = 20_000;
/// checks, draws and steps back for each number of words
const ROW_CALLS: usize = 200_000;

const P1: &[u8] = &[0];
const P2: &[u8] = &[
    0x74, 5, 2, 11, 12, 13, 4, 3, 14, 15, 8, 1, 6, 7, 10, 9, 0, 0, 1, 0, 0, 0, 2,
];
/// 3 words of 24 bits
const THREE_WORDS: &[u8] = &[0x27, 3, 24, 3, 5, 0, 6, 2, 7, 1, 4, 0x01, 0x48, 0x24, 0x00];
/// TSC-1 with odd power 3, and so by the table
const P11: &[u8] = &[0x08, 3];
/// TSC-1 with odd power 255 and even power 254
const WORST_POWERS: &[u8] = &[0x18, 255, 254];
/// TSC-1 with words of 6 bits and as many bits of its constant
const NARROW: &[u8] = &[0x22, 6, 0x21, 0, 0, 0];

/// The cards whose fill is held to Rust's, and the most of it to Rust column by column: P1 goes by gate formulas.
const FILLED: [(&str, &[u8], f64); 3] = [
    ("P1", P1, 0.1),
    ("P2", P2, 0.25),
    ("3 words of 24 bits", THREE_WORDS, 0.25),
];
/// the fill on P1 to Rust by the same formulas
const MOST_OF_GATES: f64 = 1.05;

/// A card of so many words, of 32 bits: the table y to 5y + 3, which is one cycle, an odd constant, and else TSC-1's values.
fn card_of(words: u8) -> &'static [u8] {
    let entry = |y: u32| (5 * y + 3) % (1 << words);
    let card = Card {
        words,
        width: 32,
        table: (0..1 << words).map(|y| entry(y) as u8).collect(),
        odd_power: 1,
        even_power: 2,
        constant: 0x1357_9bdf,
        filter: 1,
        sum_term: 1,
    };
    reference::write(&card).unwrap().leak()
}

// ---- Lists of shovels.

/// Shovels in descending order, and their times.
struct List {
    shovels: Vec<u16>,
    times: Vec<u32>,
}

impl List {
    fn new(count: u16, time: impl Fn(u32) -> u32) -> List {
        List {
            shovels: (0..count).rev().collect(),
            times: (0..count.into()).map(time).collect(),
        }
    }

    /// The first ones tie; the others are 100 seconds further.
    fn tied(count: u16, ties: u32) -> List {
        List::new(count, |place| if place < ties { 300 } else { 400 })
    }

    fn pairs(&self) -> Vec<Shovel> {
        let pairs = self.shovels.iter().zip(&self.times);
        pairs
            .map(|(&number, &time)| Shovel { number, time })
            .collect()
    }
}

fn pick(name: &str, card: &'static [u8], list: List) -> Subject {
    let mut state = [1, 2, 3, 4];
    Subject::call(name, CALLS, move || {
        black_box(tiedraw::pick(card, &mut state, black_box(&list.shovels), &list.times).unwrap());
    })
}

fn recorded(name: &str, list: List) -> Subject {
    recorded_pick(name, P1, CALLS, list.shovels, list.times)
}

/// On P1, each from another state, since a margin moves none.
fn margin(name: &str, calls: usize, list: List) -> Subject {
    let mut state = [1, 2, 3, 4];
    Subject::call(name, calls, move || {
        state[0] += 1;
        black_box(tiedraw::margin(P1, &state, black_box(&list.shovels), &list.times).unwrap());
    })
}

// ---- Rust.

/// For cards of up to four words.
type Setup = by_hand::Setup<4, 16>;

/// The second program's step and word, for a card that it has read.
fn second_program(name: &str, bytes: &[u8], steps: usize) -> Subject {
    let card = accept(bytes).unwrap();
    let mut state = vec![1, 2, 3, 4];
    Subject::call(name, steps, move || {
        state = reference::step(black_box(&card), &state);
        black_box(reference::word(&card, &state));
    })
}

/// Rust's margin on P1, what depends on the card alone worked out beforehand.
fn margin_by_hand(name: &str, calls: usize, list: List) -> Subject {
    let setup = Setup::new(&accept(P1).unwrap());
    let mut state = [1, 2, 3, 4];
    Subject::call(name, calls, move || {
        state[0] += 1;
        black_box(by_hand::margin(&setup, &state, black_box(list.pairs())).unwrap());
    })
}

/// Rust's margin is the library's, on P1 and with words of 6 bits.
fn compare_margins(name: &str, list: &List) {
    for bytes in [P1, NARROW] {
        let setup = Setup::new(&accept(bytes).unwrap());
        let mut state = [1, 2, 3, 4];
        for _ in 0..100 {
            let library = tiedraw::margin(bytes, &state, &list.shovels, &list.times);
            let by_hand = by_hand::margin(&setup, &state, list.pairs());
            assert!(by_hand == library.ok(), "margins differ: {name}");
            tiedraw::step(bytes, &mut state).unwrap();
        }
    }
}

// ---- What is measured, and the goals.

type Lists<const N: usize> = [(&'static str, fn() -> List); N];
/// The lists of 5 shovels: a margin is held to the pick from the same list.
const SHORT: Lists<2> = [
    ("one shovel of 5 is nearest", || List::tied(5, 1)),
    ("2 of 5 shovels tie", || List::tied(5, 2)),
];
/// Those of 64, and the most microseconds of a margin.
const LONG: Lists<3> = [
    ("64 shovels have different times", || {
        List::new(64, |place| 300 + 10 * (37 * place % 64))
    }),
    ("64 of 64 shovels tie", || List::tied(64, 64)),
    ("one shovel of 64 is nearer by a second", || {
        List::new(64, |place| 300 + place.min(1))
    }),
];
const MOST_OF_LONG: f64 = 150.0;
/// so many picks' time, of a margin of 5
const MOST_OF_SHORT: f64 = 10.0;
/// and of a recorded pick
const MOST_OF_RECORDED: f64 = 1.5;
/// counts of bits to Rust's
const MOST_OF_COUNTS: f64 = 1.5;
/// the most microseconds of a list within a radius, of 64 shovels
const MOST_OF_LISTS: f64 = 10.0;
/// the slowest selector to the quickest
const MOST_OF_JITTER: f64 = 1.05;

/// A table of 256 entries: its name, the entry at each place, and how many bad places it has, 0 for a ring.
type Table = (&'static str, fn(usize) -> usize, u8);
/// Those whose bad places are far to seek.
const TABLES: [Table; 6] = [
    (
        "the last place is its own entry",
        |place| 255.min(place + 1),
        1,
    ),
    (
        "the last two places have the same entry",
        |place| [place + 1, 0][place / 254],
        2,
    ),
    (
        "the last two places have each other's number",
        |place| [(place + 1) % 254, 509 - place][place / 254],
        2,
    ),
    (
        "a cycle of 253, then one of 3",
        |place| [(place + 1) % 253, 253 + place % 3][place / 253],
        3,
    ),
    ("two cycles of 128", |place| (place + 2) % 256, 128),
    ("a ring", |place| (place + 1) % 256, 0),
];
/// the most microseconds of bad places
const MOST_OF_BAD_PLACES: f64 = 100.0;

/// A ratio of two subjects, by their places, and the most that it may be, where there is a goal.
struct Ratio {
    name: String,
    over: usize,
    under: usize,
    most: Option<f64>,
}

/// A call of the library on a card, so often.
type OnCard = fn(&str, &'static [u8], usize) -> Subject;

/// A fill of Rust's: how it goes, itself, and the most of the library's fill to it, where there is a goal.
type ByHand<const M: usize, const E: usize> = (&'static str, Fill<M, E>, Option<f64>);
const BY_MASKS: ByHand<4, 16> = ("by minterm masks", fill_by_masks, Some(1.0));

fn by_columns(most: f64) -> ByHand<4, 16> {
    ("column by column", fill_by_columns, Some(most))
}

/// With both results joined by a mask.
fn by_joined_columns<const M: usize, const E: usize>(most: Option<f64>) -> ByHand<M, E> {
    ("column by column by mask", fill_by_joined_columns, most)
}

/// What is told of one number of words.
struct Row {
    words: u8,
    bytes: usize,
    /// of check, draw, step back, fill, and Rust column by column by mask
    places: [usize; 5],
}

#[derive(Default)]
struct Bench {
    subjects: Vec<Subject>,
    ratios: Vec<Ratio>,
    rows: Vec<Row>,
    /// places of what has a goal in microseconds, and the most
    limits: Vec<(usize, f64)>,
}

impl Bench {
    /// Gives the subject's place.
    fn add(&mut self, subject: Subject) -> usize {
        self.subjects.push(subject);
        self.subjects.len() - 1
    }

    fn ratio(&mut self, name: &str, over: usize, under: usize, most: Option<f64>) {
        self.ratios.push(Ratio {
            name: name.to_string(),
            over,
            under,
            most,
        });
    }

    /// A card's fill beside some of Rust's; gives the places of the fill and of the last of Rust's.
    fn add_fill<const M: usize, const E: usize>(
        &mut self,
        name: &str,
        card: &'static [u8],
        words: usize,
        rust: &[ByHand<M, E>],
    ) -> (usize, usize) {
        let library = format!("fill: a word, of {SPAN} a call, {name}");
        let library = self.add(fill(&library, card, words));
        let mut told = "a word, the card's part worked out";
        let mut last = library;
        for &(how, by_hand, most) in rust {
            let rust = format!("Rust {how}, {name}: {told}");
            last = self.add(fill_by_hand(&rust, card, words, by_hand));
            let ratio = format!("fill on {name} to Rust {how}");
            self.ratio(&ratio, library, last, most);
            told = "the same";
        }
        (library, last)
    }

    /// The calls on a card of so many words, its fill beside some of Rust's of which the last is column by column by mask.
    fn add_row<const M: usize, const E: usize>(&mut self, words: u8, rust: &[ByHand<M, E>]) {
        let card = card_of(words);
        let name = format!("{words} words of 32 bits");
        let (fill, columns) = self.add_fill(&name, card, CALLS, rust);
        let calls = [
            ("check", check as OnCard),
            ("draw", draw),
            ("step_back", step_back),
        ];
        let [check, draw, back] =
            calls.map(|(call, on)| self.add(on(&format!("{call}, {name}"), card, ROW_CALLS)));
        self.rows.push(Row {
            words,
            bytes: card.len(),
            places: [check, draw, back, fill, columns],
        });
    }

    /// Each number of words (document 02, Five).
    fn add_rows(&mut self) {
        for words in 2..=4 {
            self.add_row(words, &[BY_MASKS, by_joined_columns(None)]);
        }
        for words in 5..=8 {
            self.add_row::<8, 256>(words, &[by_joined_columns(Some(0.75))]);
        }
    }

    /// Rust by the gate formulas, beside the fill on P1, which stands at this place.
    fn add_gates(&mut self, fill_p1: usize) {
        let rust = "Rust by the gate formulas, P1: a word";
        let rust = self.add(fill_by_hand(rust, P1, STEPS, fill_by_gates));
        let name = "fill on P1 to Rust by the gate formulas";
        self.ratio(name, fill_p1, rust, Some(MOST_OF_GATES));
    }

    /// The worst powers beside P11, which goes by the table as they do.
    fn add_powers(&mut self) {
        let draws = [("P11", P11), ("worst powers", WORST_POWERS)];
        let [draw_p11, draw_worst] =
            draws.map(|(name, card)| self.add(draw(&format!("draw, {name}"), card, STEPS)));
        let [fill_p11, fill_worst] =
            draws.map(|(name, card)| self.add(fill(&format!("fill: a word, {name}"), card, STEPS)));
        let name = "draw with the worst powers to draw on P11";
        self.ratio(name, draw_worst, draw_p11, Some(2.0));
        let name = "fill with the worst powers to fill on P11";
        self.ratio(name, fill_worst, fill_p11, Some(1.05));
    }

    /// The draw; the fill on P1 and Rust's column by column stand at these places.
    fn add_draw(&mut self, fill_p1: usize, columns: usize) {
        let draw_p1 = self.add(draw("draw: read, check, step and word, P1", P1, STEPS));
        let second = "second program, P1: step and word, the card already read";
        let second = self.add(second_program(second, P1, STEPS));
        for (name, over, under, most) in [
            (
                "draw on P1 to Rust column by column",
                draw_p1,
                columns,
                None,
            ),
            ("draw on P1 to a word of fill", draw_p1, fill_p1, None),
            (
                "draw on P1 to the second program's step",
                draw_p1,
                second,
                Some(2.0),
            ),
        ] {
            self.ratio(name, over, under, most);
        }
    }

    /// The margin of a list beside Rust's; gives its place.
    fn add_margin(&mut self, name: &str, calls: usize, list: fn() -> List) -> usize {
        let library = self.add(margin(&format!("margin: {name}, P1"), calls, list()));
        let rust = format!("Rust, {name}, P1: its margin, the card's part worked out");
        let rust = self.add(margin_by_hand(&rust, calls, list()));
        self.ratio(&format!("margin to Rust's: {name}"), library, rust, None);
        library
    }

    /// The recorded pick of a list beside the plain one, which stands at this place.
    fn add_recorded(&mut self, name: &str, list: List, pick: usize) {
        let recorded = self.add(recorded(&format!("recorded pick: {name}, P1"), list));
        let name = format!("recorded pick to the pick: {name}");
        self.ratio(&name, recorded, pick, Some(MOST_OF_RECORDED));
    }

    /// Readers of records for the desk and for the cab, the library's beside Rust's.
    fn add_readers(&mut self) {
        let desk = "desk: every field of a record of 4 words";
        let cab = "cab: the shovel of a record of 4 words";
        let readers = [
            ("desk", desks([desk, "Rust by hand, desk: the same"], CALLS)),
            ("cab", cabs([cab, "Rust by hand, cab: the same"], CALLS)),
        ];
        for (reader, subjects) in readers {
            let [library, rust] = subjects.map(|subject| self.add(subject));
            self.ratio(&format!("{reader} to Rust by hand"), library, rust, None);
        }
    }

    /// The counts of as many bits as there may be, beside Rust's.
    fn add_counts(&mut self) {
        let library = "counts: the bits of 16,384 words of 32 bits";
        let rust = "Rust by hand, counts: the same, the card's width known";
        let [library, rust] = counts([library, rust], COUNTS).map(|subject| self.add(subject));
        let name = "counts to Rust by hand";
        self.ratio(name, library, rust, Some(MOST_OF_COUNTS));
    }

    /// The margins, and the picks that those of 5 shovels are held to; the recorded ones too.
    fn add_margins(&mut self) {
        for (name, list) in SHORT {
            let pick = self.add(pick(&format!("pick: {name}, P1"), P1, list()));
            self.add_recorded(name, list(), pick);
            let margin = self.add_margin(name, MARGINS, list);
            let name = format!("margin to the pick: {name}");
            self.ratio(&name, margin, pick, Some(MOST_OF_SHORT));
        }
        for (name, list) in LONG {
            let margin = self.add_margin(name, LONG_MARGINS, list);
            self.limits.push((margin, MOST_OF_LONG));
        }
    }

    /// Picks by the map beside Rust's.
    fn add_map_picks(&mut self) {
        for (count, ties) in [(5, 1), (5, 2), (64, 1), (64, 64)] {
            let name = format!("{ties} of {count} shovels nearest");
            let library = format!("pick by map: {name}, P1");
            let rust =
                format!("Rust by hand, {name}, P1: its pick by map, the card's part worked out");
            let subjects = picks([&library, &rust], CALLS, &tied(count, ties));
            let [library, rust] = subjects.map(|subject| self.add(subject));
            let name = format!("pick by map to Rust by hand: {name}");
            self.ratio(&name, library, rust, None);
        }
    }

    /// Lists of 64 shovels within a radius, beside Rust's. They stand a kilometre apart.
    fn add_lists(&mut self) {
        for near in [64, 32] {
            let library = format!("within: {near} of 64 shovels");
            let rust = format!("Rust by hand, within: {near} of 64 shovels");
            let radius = 1000 * i32::from(near);
            let subjects = lists([&library, &rust], LISTS, &spread(64), radius, near);
            let [library, rust] = subjects.map(|subject| self.add(subject));
            self.limits.push((library, MOST_OF_LISTS));
            let name = format!("within to Rust by hand: {near} of 64 shovels");
            self.ratio(&name, library, rust, None);
        }
    }

    /// Bad places of tables of 256 entries, beside Rust's.
    fn add_bad_places(&mut self) {
        for (name, entry, count) in TABLES {
            let library = format!("bad places: {name}");
            let rust = format!("Rust by hand, {name}: its bad places, the card already read");
            let card = table_subjects::card_of(entry);
            let subjects = bad_places([&library, &rust], BAD_PLACES, &card, count);
            let [library, rust] = subjects.map(|subject| self.add(subject));
            self.limits.push((library, MOST_OF_BAD_PLACES));
            let name = format!("bad places to Rust by hand: {name}");
            self.ratio(&name, library, rust, None);
        }
    }

    fn new() -> Bench {
        let mut bench = Bench::default();
        let places = FILLED.map(|(name, card, most)| {
            bench.add_fill(name, card, STEPS, &[BY_MASKS, by_columns(most)])
        });
        let (fill_p1, columns_p1) = places[0];
        bench.add_gates(fill_p1);
        bench.add_draw(fill_p1, columns_p1);
        bench.add_powers();
        bench.add_margins();
        bench.add_readers();
        bench.add_counts();
        bench.add_map_picks();
        bench.add_lists();
        bench.add_bad_places();
        bench.add_rows();
        bench.subjects.extend(others());
        bench
    }
}

/// What is in no ratio.
fn others() -> Vec<Subject> {
    vec![
        draw("draw, P2", P2, STEPS),
        check("check: read and check, P1 of 1 byte", P1, CALLS),
        check("check, P2 of 23 bytes", P2, CALLS),
        step("step: read, check and step, P1", P1, CALLS),
        step("step, P2", P2, CALLS),
        step_back("step_back: read, check and step back, P1", P1, CALLS),
        step_back("step_back, P2", P2, CALLS),
        pick("pick: 6 of 6 shovels tie, P1", P1, List::tied(6, 6)),
        pick(
            "pick: one shovel of 64 is nearest, P1",
            P1,
            List::tied(64, 1),
        ),
        pick("pick: 64 of 64 shovels tie, P1", P1, List::tied(64, 64)),
        pick(
            "pick: 33 of 33 shovels tie, 6 bits",
            NARROW,
            List::tied(33, 33),
        ),
        second_program("second program, worst powers", WORST_POWERS, CALLS / 10),
    ]
}

// ---- The report.

/// Prints a ratio; whether it is within its goal, if it has one.
fn holds(ratio: &Ratio, best: &[f64]) -> bool {
    let value = best[ratio.over] / best[ratio.under];
    match ratio.most {
        Some(most) => within(&ratio.name, value, most),
        None => {
            println!("{value:>9.2}     {}", ratio.name);
            true
        }
    }
}

/// Whether all that has a goal in microseconds is within it.
fn quick_calls(bench: &Bench, best: &[f64]) -> bool {
    let quick = |&(place, most): &(usize, f64)| {
        let name = format!("{}, in microseconds", bench.subjects[place].name);
        within(&name, best[place] / 1000.0, most)
    };
    let held: Vec<bool> = bench.limits.iter().map(quick).collect();
    !held.contains(&false)
}

/// The table of docs/PERFORMANCE.md, The cost for each number of words.
fn print_rows(rows: &[Row], best: &[f64]) {
    println!("| m | card bytes | check | draw | step back | a word of fills | Rust column by column | ratio |");
    println!("|---|---|---|---|---|---|---|---|");
    for Row {
        words,
        bytes,
        places,
    } in rows
    {
        let times = places.map(|place| best[place]);
        let [_, _, _, fill, columns] = times;
        let times = times.map(figure).join(" | ");
        println!("| {words} | {bytes} | {times} | {:.2} |", fill / columns);
    }
}

/// Whether a step on a card of M words of 32 bits takes as long whatever the selector is.
fn steady_step<const M: usize>(name: &str, bytes: &[u8]) -> bool {
    let step = |state: &mut State<M>| tiedraw::step(black_box(bytes), state).unwrap();
    let name = format!("step, {name}");
    steady(&name, &accept(bytes).unwrap(), MOST_OF_JITTER, step)
}

/// Whether a fill of one word on a card of four words of 32 bits does.
fn steady_fill(name: &str, bytes: &[u8]) -> bool {
    let fill = |state: &mut State<4>| {
        tiedraw::fill(black_box(bytes), state, black_box(&mut [0]), 0, 1).unwrap()
    };
    let name = format!("fill of one word, {name}");
    steady(&name, &accept(bytes).unwrap(), MOST_OF_JITTER, fill)
}

/// By gate formulas, and by the table of 4 and of 8 words.
fn steady_calls() -> bool {
    let held = [
        steady_step::<4>("P1", P1),
        steady_fill("P1", P1),
        steady_step::<4>("P11", P11),
        steady_fill("P11", P11),
        steady_step::<8>("8 words of 32 bits", card_of(8)),
    ];
    !held.contains(&false)
}

fn main() {
    let lists = SHORT.iter().chain(&LONG);
    lists.for_each(|(name, list)| compare_margins(name, &list()));
    let mut bench = Bench::new();
    let best = measure(&mut bench.subjects);
    for (subject, best) in bench.subjects.iter().zip(&best) {
        println!("{best:>9.1} ns  {} ({} times)", subject.name, subject.calls);
    }
    print_rows(&bench.rows, &best);
    let many = ten_million::report();
    let held: Vec<bool> = bench
        .ratios
        .iter()
        .map(|ratio| holds(ratio, &best))
        .collect();
    let quick = quick_calls(&bench, &best);
    let steady = steady_calls();
    exit(i32::from(
        held.contains(&false) || !many || !quick || !steady,
    ));
}
