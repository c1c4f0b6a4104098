//! How near a pick was, through the wrapper: document 02, Four.
use tiedraw::{Card, Choice, Generator, Margin, Refusal, Shovel};

const PROGRAM: &[u8] = &[0x27, 2, 2, 1, 2, 3, 0, 1, 0, 0, 0];
const MAX: u32 = u32::MAX;
const FIRM: Result<Margin, Refusal> = Err(Refusal::NoSuchChange);

fn server(card: &[u8], state: &[u32]) -> Generator {
    Generator::new(Card::new(card).unwrap(), state).unwrap()
}

fn shovels(numbers: impl IntoIterator<Item = u16>, times: &[u32]) -> Vec<Shovel> {
    let pairs = numbers.into_iter().zip(times);
    pairs
        .map(|(number, &time)| Shovel { number, time })
        .collect()
}

/// The program's margin of these shovels and times.
fn margin(state: [u32; 2], numbers: &[u16], times: &[u32]) -> Result<Margin, Refusal> {
    let list = shovels(numbers.iter().copied(), times);
    server(PROGRAM, &state).margin(&list)
}

fn answer(
    changed: u16,
    raised: bool,
    seconds: u32,
    (shovel, ties, taken): (u16, u8, u8),
) -> Result<Margin, Refusal> {
    Ok(Margin {
        changed,
        raised,
        seconds,
        choice: Choice {
            shovel,
            ties,
            taken,
        },
    })
}

fn lowered(changed: u16, seconds: u32, choice: (u16, u8, u8)) -> Result<Margin, Refusal> {
    answer(changed, false, seconds, choice)
}

fn raised(changed: u16, seconds: u32, choice: (u16, u8, u8)) -> Result<Margin, Refusal> {
    answer(changed, true, seconds, choice)
}

/// The list with one time changed; none where it would leave 0 to 4294967295.
fn changed(list: &[Shovel], number: u16, raised: bool, seconds: u32) -> Option<Vec<Shovel>> {
    let mut list = list.to_vec();
    let shovel = list.iter_mut().find(|shovel| shovel.number == number)?;
    shovel.time = match raised {
        true => shovel.time.checked_add(seconds)?,
        false => shovel.time.checked_sub(seconds)?,
    };
    Some(list)
}

/// The answer to one change, tried; none where it does not count.
fn tried(server: &Generator, list: &[Shovel], change: (u16, bool, u32)) -> Option<Margin> {
    let (number, raised, seconds) = change;
    let before = server.clone().pick(list).ok()?;
    let list = changed(list, number, raised, seconds)?;
    let choice = server.clone().pick(&list).ok()?;
    let margin = Margin {
        changed: number,
        raised,
        seconds,
        choice,
    };
    (choice.shovel != before.shovel).then(|| margin)
}

/// The first change that counts, all of up to so many seconds tried in their order.
fn by_trying(server: &Generator, list: &[Shovel], most: u32) -> Result<Margin, Refusal> {
    server.clone().pick(list)?;
    let mut numbers: Vec<u16> = list.iter().map(|shovel| shovel.number).collect();
    numbers.sort_unstable();
    for seconds in 1..=most {
        for &number in &numbers {
            for raised in [false, true] {
                if let Some(margin) = tried(server, list, (number, raised, seconds)) {
                    return Ok(margin);
                }
            }
        }
    }
    FIRM
}

#[test]
fn the_papers_examples() {
    for (state, times, told) in [
        ([0, 0], [300, 305], raised(4, 6, (7, 1, 0))),
        ([2, 3], [300, 305], raised(4, 5, (7, 2, 1))),
        ([0, 0], [0, MAX], FIRM),
    ] {
        assert_eq!(margin(state, &[4, 7], &times), told);
        assert_eq!(margin(state, &[7, 4], &[times[1], times[0]]), told);
        assert_eq!(tiedraw::margin(PROGRAM, &state, &[4, 7], &times), told);
    }
    for time in [0, 1, 300, MAX] {
        assert_eq!(margin([0, 0], &[4], &[time]), FIRM);
    }
}

#[test]
fn a_time_of_0_is_not_lowered_and_the_greatest_not_raised() {
    // a tie of 4 and 7 goes to 4 from 0, 0 and to 7 from 2, 3
    for (state, times, told) in [
        ([0, 0], [0, 0], raised(4, 1, (7, 1, 0))),
        ([2, 3], [0, 0], raised(7, 1, (4, 1, 0))),
        ([0, 0], [MAX, MAX], lowered(7, 1, (7, 1, 0))),
        ([2, 3], [MAX, MAX], lowered(4, 1, (4, 1, 0))),
        ([0, 0], [0, MAX - 1], raised(4, MAX, (7, 1, 0))),
        ([0, 0], [1, MAX], lowered(7, MAX, (7, 1, 0))),
        ([2, 3], [0, MAX], raised(4, MAX, (7, 2, 1))),
        ([2, 3], [MAX, 0], FIRM),
    ] {
        assert_eq!(margin(state, &[4, 7], &times), told);
    }
}

#[test]
fn of_equal_changes_the_lower_number_comes_first_then_lowered() {
    let lower = lowered(2, 5, (2, 2, 1));
    assert_eq!(margin([0, 0], &[2, 4], &[305, 300]), lower);
    // from 1, 1 shovel 3 is chosen; 1 lowered is alone, and 1 raised leaves a tie that goes to 2
    let first = lowered(1, 1, (1, 1, 0));
    assert_eq!(margin([1, 1], &[3, 1, 2], &[10; 3]), first);
    let second = raised(1, 1, (2, 2, 1));
    assert_eq!(margin([1, 1], &[3, 1, 2], &[0; 3]), second);
}

#[test]
fn a_change_that_the_pick_would_refuse_does_not_count() {
    // words of 2 bits rank four: of five shovels 1 raised by 1 would be the fifth equal, and raised by 2 it leaves four
    let numbers = [1, 2, 3, 4, 5, 6];
    let later = [10, 11, 11, 11, 11, 11];
    let larger = raised(1, 2, (2, 4, 1));
    assert_eq!(margin([0, 0], &numbers[..5], &later[..5]), larger);
    let alone = lowered(2, 2, (2, 1, 0));
    assert_eq!(margin([0, 0], &numbers, &later), alone);
    assert_eq!(margin([0, 0], &numbers, &[0, 1, 1, 1, 1, 1]), FIRM);
}

/// The times of all lists of so many shovels where they are below `end`.
fn all_lists(count: u32, end: u32) -> impl Iterator<Item = Vec<u32>> {
    let times = move |code: u32| (0..count).map(move |place| code / end.pow(place) % end);
    (0..end.pow(count)).map(move |code| times(code).collect())
}

#[test]
fn no_change_that_counts_comes_before_the_one_told() {
    let mut firm = 0;
    for state in 0..16 {
        let server = server(PROGRAM, &[state / 4, state % 4]);
        for times in all_lists(3, 5).chain(all_lists(6, 2)) {
            let numbers = (0..times.len() as u16).rev();
            let high: Vec<u32> = times.iter().map(|time| MAX - time).collect();
            for times in [times, high] {
                let list = shovels(numbers.clone(), &times);
                let told = server.margin(&list);
                assert_eq!(told, by_trying(&server, &list, 6));
                firm += usize::from(told == FIRM);
            }
        }
    }
    assert!(firm > 0);
}

/// Times of 64 shovels: all different, all equal, one nearer by a second, and far apart.
fn long_lists() -> [Vec<u32>; 4] {
    let times = |time: fn(u32) -> u32| (0..64).map(time).collect();
    [
        times(|place| 300 + place * 37 % 64),
        times(|_| 300),
        times(|place| 301 - u32::from(place == 40)),
        times(|place| place.wrapping_mul(0x9e37_79b9)),
    ]
}

#[test]
fn the_changed_list_is_picked_from_as_told_and_the_state_is_not_moved() {
    for times in long_lists() {
        let list = shovels((0..64).map(|place| 1000 - 7 * place), &times);
        let mut server = server(&[0], &[1, 2, 3, 4]);
        for _ in 0..200 {
            let before = server.clone();
            let told = server.margin(&list).unwrap();
            assert_eq!(server, before);
            let Margin {
                changed,
                raised,
                seconds,
                ..
            } = told;
            let change = (changed, raised, seconds);
            assert_eq!(tried(&server, &list, change), Some(told));
            assert_eq!(server.margin(&list), Ok(told));
            server.step();
        }
    }
}

#[test]
fn the_order_of_the_list_makes_no_difference() {
    for times in long_lists() {
        let mut list = shovels((0..64).map(|place| 7 * place), &times);
        let server = server(&[0], &[4, 3, 2, 1]);
        let told = server.margin(&list);
        for turn in 1..list.len() {
            list.rotate_left(turn);
            list[turn..].reverse();
            assert_eq!(server.margin(&list), told);
        }
    }
}

/// Card, state, shovels, how many times, and the refusal's number.
type Row<'a> = (&'a [u8], &'a [u32], &'a [u16], usize, u8);

#[test]
fn what_the_pick_refuses_is_refused_first() {
    let equals = [300; 65];
    let numbers: Vec<u16> = (1..=65).collect();
    let rows: [Row; 18] = [
        (&[], &[0; 4], &[7], 1, 1),
        (&[0x40, 3], &[0; 4], &[7], 1, 2),
        (&[0x08, 1], &[0; 4], &[7], 1, 3),
        (&[0x01, 3], &[0; 3], &[7], 1, 4),
        (&[0, 0], &[0; 4], &[7], 1, 5),
        (&[0x02, 28], &[0; 4], &[7], 1, 6),
        (&[0x05, 2, 0, 1, 2, 3], &[0; 2], &[7], 1, 7),
        (&[0x20, 2, 0, 0, 0], &[0; 4], &[7], 1, 8),
        (&[0x08, 2], &[0; 4], &[7], 1, 9),
        (PROGRAM, &[4], &[7], 1, 10),
        (PROGRAM, &[0, 4], &[7], 1, 11),
        (PROGRAM, &[2, 3], &[7, 7], 1, 12),
        (PROGRAM, &[2, 3], &[7], 0, 12),
        (PROGRAM, &[2, 3], &[], 0, 13),
        (PROGRAM, &[2, 3], &numbers, 65, 14),
        (PROGRAM, &[2, 3], &[1, 2, 3, 4, 5, 1], 6, 15),
        (PROGRAM, &[2, 3], &numbers[..64], 64, 18),
        (PROGRAM, &[2, 3], &[7], 1, 19),
    ];
    for (card, state, shovels, times, number) in rows {
        let refusal = Refusal::from_number(number).unwrap();
        let told = tiedraw::margin(card, state, shovels, &equals[..times]);
        assert_eq!(told, Err(refusal));
        let picked = tiedraw::pick(card, &mut state.to_vec(), shovels, &equals[..times]);
        assert_eq!(picked.err(), Some(refusal).filter(|_| number != 19));
    }
    let firm = Refusal::NoSuchChange;
    assert_eq!((firm.number(), firm.trade_word()), (19, "firm"));
}
