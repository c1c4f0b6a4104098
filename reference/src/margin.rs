//! How near a pick was to another shovel (document 02, Four), found by trying: smaller changes
//! before larger ones, a pick for each.

use crate::pick::{call_pick, Picked};
use std::ops::RangeInclusive;

/// Where no time is greater, every amount of seconds is tried, otherwise those near differences.
const LIMIT: u32 = 4096;

/// The answer of a margin.
#[derive(Clone, Copy, PartialEq, Debug)]
pub struct Margin {
    pub changed: u16, // the shovel whose time is changed
    pub raised: bool, // otherwise lowered
    pub seconds: u32,
    pub pick: Picked, // that with the changed time
}

/// Every amount from 1 to one more than the greatest time. A larger one would lower any time below
/// 0. A time raised by a larger one is above all others, which it is when raised by the last of
/// these, too: the pick is the same.
fn all_amounts(times: &[u32]) -> RangeInclusive<u32> {
    let greatest = times.iter().max().copied().unwrap_or(0);
    1..=greatest.saturating_add(1)
}

/// The amounts at most one from the difference of two times, and 1, in ascending order. The test
/// `random_lists` compares them with all amounts.
fn amounts_near_differences(times: &[u32]) -> Vec<u32> {
    let mut amounts = vec![1];
    for (place, time) in times.iter().enumerate() {
        for other in &times[..place] {
            let difference = time.abs_diff(*other);
            amounts.extend(difference.checked_sub(1));
            amounts.push(difference);
            amounts.extend(difference.checked_add(1));
        }
    }
    amounts.retain(|&seconds| seconds != 0);
    amounts.sort();
    amounts.dedup();
    amounts
}

/// The times with one lowered or raised; none where it would leave 0 to 4294967295.
fn changed(times: &[u32], place: usize, raised: bool, seconds: u32) -> Option<Vec<u32>> {
    let time = match raised {
        true => times[place].checked_add(seconds)?,
        false => times[place].checked_sub(seconds)?,
    };
    let mut times = times.to_vec();
    times[place] = time;
    Some(times)
}

/// A pick on a copy of the state.
fn pick(card: &[u8], state: &[u32], shovels: &[u16], times: &[u32]) -> Result<Picked, u8> {
    call_pick(card, &mut state.to_vec(), shovels, times)
}

/// The first change by one of these amounts whose pick is not refused and goes to another number.
/// For each amount the lowest shovel number comes first, lowered before raised.
fn first_change<A: IntoIterator<Item = u32>>(
    card: &[u8],
    state: &[u32],
    shovels: &[u16],
    times: &[u32],
    amounts: fn(&[u32]) -> A,
) -> Result<Margin, u8> {
    let unchanged = pick(card, state, shovels, times)?;
    let mut places: Vec<usize> = (0..shovels.len()).collect();
    places.sort_by_key(|&place| shovels[place]);
    for seconds in amounts(times) {
        for &place in &places {
            for raised in [false, true] {
                let Some(times) = changed(times, place, raised, seconds) else {
                    continue;
                };
                match pick(card, state, shovels, &times) {
                    Ok(pick) if pick.shovel != unchanged.shovel => {
                        return Ok(Margin {
                            changed: shovels[place],
                            raised,
                            seconds,
                            pick,
                        });
                    }
                    _ => {}
                }
            }
        }
    }
    Err(19)
}

/// The margin with every amount tried, which takes long where times are great.
pub fn margin_by_all_amounts(
    card: &[u8],
    state: &[u32],
    shovels: &[u16],
    times: &[u32],
) -> Result<Margin, u8> {
    first_change(card, state, shovels, times, all_amounts)
}

/// The smallest change of one time that sends the truck elsewhere from this state, or a refusal
/// number: those of the pick as it is, 1 to 15 and 18, then 19 where there is no such change.
pub fn call_margin(
    card: &[u8],
    state: &[u32],
    shovels: &[u16],
    times: &[u32],
) -> Result<Margin, u8> {
    if times.iter().all(|&time| time <= LIMIT) {
        margin_by_all_amounts(card, state, shovels, times)
    } else {
        first_change(card, state, shovels, times, amounts_near_differences)
    }
}

#[cfg(test)]
mod tests {
    use super::*;
    use crate::cases::random_card;
    use crate::{encode, mask, next};

    const PROGRAM: [u8; 11] = [0x27, 2, 2, 1, 2, 3, 0, 1, 0, 0, 0]; // document 01, The program
    const MAX: u32 = u32::MAX;

    /// The answer in the order of the case `margin`.
    fn answer(
        changed: u16,
        raised: bool,
        seconds: u32,
        (shovel, ties, taken): (u16, usize, usize),
    ) -> Result<Margin, u8> {
        Ok(Margin {
            changed,
            raised,
            seconds,
            pick: Picked {
                shovel,
                ties,
                taken,
            },
        })
    }
    fn lowered(changed: u16, seconds: u32, pick: (u16, usize, usize)) -> Result<Margin, u8> {
        answer(changed, false, seconds, pick)
    }
    fn raised(changed: u16, seconds: u32, pick: (u16, usize, usize)) -> Result<Margin, u8> {
        answer(changed, true, seconds, pick)
    }

    /// With the program's card. Its words are 0 and 0 from 0, 0; 3 and 2 from 2, 3; 2 from 1, 1.
    fn margin(state: [u32; 2], shovels: &[u16], times: &[u32]) -> Result<Margin, u8> {
        call_margin(&PROGRAM, &state, shovels, times)
    }

    /// Shovels 4 and 7 at these times. In the other order the answer is the same.
    fn of_two(state: [u32; 2], times: [u32; 2]) -> Result<Margin, u8> {
        let answer = margin(state, &[4, 7], &times);
        let [first, second] = times;
        assert_eq!(margin(state, &[7, 4], &[second, first]), answer);
        answer
    }

    /// Document 02, Four: a tie that goes elsewhere counts. A list of one is firm, and so may be
    /// others.
    #[test]
    fn examples() {
        assert_eq!(of_two([0, 0], [300, 305]), raised(4, 6, (7, 1, 0)));
        assert_eq!(of_two([2, 3], [300, 305]), raised(4, 5, (7, 2, 1)));
        assert_eq!(of_two([0, 0], [0, MAX]), Err(19));
        for time in [0, 1, 300, LIMIT, LIMIT + 1, MAX] {
            assert_eq!(margin([0, 0], &[7], &[time]), Err(19));
        }
    }

    /// Both the pick as it is and the changed one take a word; the lent state stays.
    #[test]
    fn state_is_not_moved() {
        let state = vec![1, 1];
        let first = call_margin(&PROGRAM, &state, &[1, 2, 3], &[0; 3]);
        assert_eq!(first, raised(1, 1, (2, 2, 1)));
        assert_eq!(state, [1, 1]);
        let second = call_margin(&PROGRAM, &state, &[1, 2, 3], &[0; 3]);
        assert_eq!(second, first);
    }

    /// The largest changes there are, and lists on either side of the limit.
    #[test]
    fn far_times() {
        assert_eq!(of_two([2, 3], [0, MAX]), raised(4, MAX, (7, 2, 1)));
        assert_eq!(of_two([0, 0], [0, MAX - 1]), raised(4, MAX, (7, 1, 0)));
        assert_eq!(of_two([0, 0], [1, MAX]), lowered(7, MAX, (7, 1, 0)));
        assert_eq!(of_two([0, 0], [MAX, 0]), lowered(4, MAX, (4, 2, 1)));
        assert_eq!(of_two([2, 3], [MAX, 0]), Err(19));
        for time in [LIMIT - 1, LIMIT, LIMIT + 1, LIMIT + 2] {
            assert_eq!(of_two([0, 0], [0, time]), raised(4, time + 1, (7, 1, 0)));
            assert_eq!(of_two([2, 3], [0, time]), raised(4, time, (7, 2, 1)));
        }
    }

    /// A time of 0 is not lowered, one of 4294967295 not raised.
    #[test]
    fn times_stay_in_range() {
        for time in [1, 300, MAX - 1] {
            assert_eq!(of_two([0, 0], [time; 2]), raised(4, 1, (7, 1, 0)));
            assert_eq!(of_two([2, 3], [time; 2]), lowered(4, 1, (4, 1, 0)));
        }
        assert_eq!(of_two([0, 0], [0; 2]), raised(4, 1, (7, 1, 0)));
        assert_eq!(of_two([2, 3], [0; 2]), raised(7, 1, (4, 1, 0)));
        assert_eq!(of_two([0, 0], [MAX; 2]), lowered(7, 1, (7, 1, 0)));
        assert_eq!(of_two([2, 3], [MAX; 2]), lowered(4, 1, (4, 1, 0)));
    }

    /// By 5 either change brings a tie, which goes to 2. In the others shovel 1 can be lowered and
    /// be alone, or be raised and leave a tie of 2 and 3, which goes from 3 to 2.
    #[test]
    fn equal_changes() {
        let lower = lowered(2, 5, (2, 2, 1));
        assert_eq!(margin([0, 0], &[2, 4], &[305, 300]), lower);
        assert_eq!(margin([0, 0], &[4, 2], &[300, 305]), lower);
        for shovels in [[1, 2, 3], [3, 1, 2]] {
            let first = lowered(1, 1, (1, 1, 0));
            assert_eq!(margin([1, 1], &shovels, &[10; 3]), first);
            let second = raised(1, 1, (2, 2, 1));
            assert_eq!(margin([1, 1], &shovels, &[0; 3]), second);
        }
    }

    /// Words of 2 bits rank four. Shovel 0 lowered by 1 would be the fifth. Shovel 1 raised by 1
    /// would be the fifth or sixth, raised by 2 it leaves four or five. A tie of 1 and another goes
    /// to 1 from 0, 0 and to the other from 2, 3.
    #[test]
    fn refused_changes_do_not_count() {
        let equals = [11, 10, 10, 10, 10];
        let next = raised(1, 1, (2, 3, 1));
        assert_eq!(margin([0, 0], &[0, 1, 2, 3, 4], &equals), next);

        let shovels = [1, 2, 3, 4, 5, 6];
        let later = |time: u32| [time, time + 1, time + 1, time + 1, time + 1, time + 1];
        for time in [0, 10, LIMIT, MAX - 2] {
            let larger = raised(1, 2, (2, 4, 1));
            assert_eq!(margin([0, 0], &shovels[..5], &later(time)[..5]), larger);
            let tie = lowered(2, 1, (2, 2, 1));
            assert_eq!(margin([2, 3], &shovels, &later(time)), tie);
        }
        let alone = lowered(2, 2, (2, 1, 0));
        assert_eq!(margin([0, 0], &shovels, &later(10)), alone);
        assert_eq!(margin([0, 0], &shovels[..5], &later(MAX - 1)[..5]), alone);
        assert_eq!(margin([0, 0], &shovels, &later(0)), Err(19));
    }

    /// Card, state, shovels, times and the refusal number.
    type Row<'a> = (&'a [u8], &'a [u32], &'a [u16], &'a [u32], u8);

    /// With lists that would be firm, or that the pick refuses later.
    #[test]
    fn refusals_in_order() {
        let many: Vec<u16> = (0..65).collect();
        let rows: [Row; 12] = [
            (&[], &[0, 0], &[7], &[300], 1),
            (&[0x08, 0x02], &[0, 0], &[7], &[300], 9),
            (&PROGRAM, &[4], &[7], &[300], 10),
            (&PROGRAM, &[0, 4], &[7], &[300], 11),
            (&PROGRAM, &[0, 4], &[], &[], 11),
            (&PROGRAM, &[2, 3], &[7], &[], 12),
            (&PROGRAM, &[2, 3], &[7, 7], &[300], 12),
            (&PROGRAM, &[2, 3], &[], &[], 13),
            (&PROGRAM, &[2, 3], &many, &[1; 65], 14),
            (&PROGRAM, &[2, 3], &[7, 7], &[300; 2], 15),
            (&PROGRAM, &[2, 3], &many[..64], &[1; 64], 18),
            (&PROGRAM, &[2, 3], &many[..1], &[1], 19),
        ];
        for (card, state, shovels, times, refusal) in rows {
            assert_eq!(call_margin(card, state, shovels, times), Err(refusal));
            let pick = pick(card, state, shovels, times);
            assert_eq!(pick.err().unwrap_or(19), refusal);
        }
    }

    #[test]
    fn amounts() {
        assert_eq!(all_amounts(&[3, 0, 2]), 1..=4);
        assert_eq!(all_amounts(&[3, MAX]), 1..=MAX);
        let amounts: [(&[u32], &[u32]); 6] = [
            (&[5], &[1]),
            (&[5, 5], &[1]),
            (&[5, 6], &[1, 2]),
            (&[9, 5], &[1, 3, 4, 5]),
            (&[0, MAX], &[1, MAX - 1, MAX]),
            (&[20, 0, 5], &[1, 4, 5, 6, 14, 15, 16, 19, 20, 21]),
        ];
        for (times, near) in amounts {
            assert_eq!(amounts_near_differences(times), near);
        }
    }

    /// A card, most of them narrow, and a state of it.
    fn random_call(x: &mut u32) -> (Vec<u8>, Vec<u32>) {
        let words = 2 + (next(x) % 7) as u8;
        let width = 2 + (next(x) % [2, 3, 31][next(x) as usize % 3]) as u8;
        let state = (0..words).map(|_| next(x) & mask(width)).collect();
        (encode(&random_card(words, width, x)), state)
    }

    /// Shovels in random order, with times near 0 or, where there are several, near the greatest.
    /// In some lists all but one have the same time.
    fn random_list(x: &mut u32) -> (Vec<u16>, Vec<u32>) {
        let (length, spread) = (1 + next(x) % 9, [2, 4, 60][next(x) as usize % 3]);
        let high = length > 1 && next(x) & 3 == 0;
        let same = next(x) & 1 == 0;
        let mut later = next(x) % spread;
        let mut list = Vec::new();
        for number in 0..length as u16 {
            if !same {
                later = next(x) % spread;
            }
            let time = if high { MAX - later } else { later };
            list.insert(next(x) as usize % (list.len() + 1), (7 * number, time));
        }
        if same && !high {
            list[0].1 = 0;
        }
        list.into_iter().unzip()
    }

    /// Both ways to choose the amounts agree, whatever the order of the list. Some lists of several
    /// are firm, and some changes are large.
    #[test]
    fn random_lists() {
        let mut x = 5;
        let (mut firm, mut large) = (0, 0);
        for _ in 0..20_000 {
            let (card, state) = random_call(&mut x);
            let (mut shovels, mut times) = random_list(&mut x);
            let all = margin_by_all_amounts(&card, &state, &shovels, &times);
            assert_eq!(call_margin(&card, &state, &shovels, &times), all);
            shovels.reverse();
            times.reverse();
            let near = first_change(&card, &state, &shovels, &times, amounts_near_differences);
            assert_eq!(near, all);
            firm += usize::from(shovels.len() > 1 && all == Err(19));
            large += usize::from(all.is_ok_and(|margin| margin.seconds > 20));
        }
        assert!(firm >= 50 && large >= 1000, "{firm} {large}");
    }
}
