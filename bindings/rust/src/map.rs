//! By the map when times are missing: picks of the nearest shovel, and the shovels within a radius.
//!
//! SAFETY, of each call below: as of the calls in `lib.rs`.

use crate::{ffi, version, Choice, Generator, Refusal};

/// A place on the grid of the map, in whole metres. Coordinates go from -[`MOST_COORDINATE`](crate::MOST_COORDINATE) to
/// [`MOST_COORDINATE`](crate::MOST_COORDINATE); the calls refuse others by 25.
#[derive(Clone, Copy, Debug, PartialEq, Eq, Hash)]
pub struct Place {
    /// its first coordinate
    pub x: i32,
    /// its second
    pub y: i32,
}

/// A shovel that a truck may be sent to, and its place.
#[derive(Clone, Copy, Debug, PartialEq, Eq)]
pub struct PlacedShovel {
    /// its number
    pub number: u16,
    /// where it stands
    pub place: Place,
}

/// Numbers and coordinates, as the calls on slices take them.
fn lists(shovels: &[PlacedShovel]) -> (Vec<u16>, Vec<i32>, Vec<i32>) {
    let numbers = shovels.iter().map(|shovel| shovel.number);
    let xs = shovels.iter().map(|shovel| shovel.place.x);
    let ys = shovels.iter().map(|shovel| shovel.place.y);
    (numbers.collect(), xs.collect(), ys.collect())
}

/// The shovel nearest to a truck at (`x`, `y`), by squared distance; shovel i stands at (`xs[i]`, `ys[i]`). Equally near
/// ones are drawn as [`pick()`](crate::pick()) draws those of equal time, so that the order of the lists makes no
/// difference.
///
/// Or refusal 1 to 15, 12 being told unless the three lists have one count; then 25 where a coordinate is off the map; then
/// 18.
///
/// ```
/// let program = [0x27, 2, 2, 1, 2, 3, 0, 1, 0, 0, 0];
/// let mut state = [0, 0];
/// // 7 and 4 are 5 m away, 9 is 6 m away
/// let choice = tiedraw::pick_by_map(&program, &mut state, 1, 1, &[7, 4, 9], &[4, -4, 1], &[5, 1, 7])?;
/// assert_eq!((choice.shovel, choice.ties, choice.taken), (4, 2, 1));
/// assert_eq!(state, [1, 2]);
/// let off = tiedraw::pick_by_map(&program, &mut state, 1_000_001, 1, &[7], &[4], &[5]);
/// assert_eq!(off, Err(tiedraw::Refusal::OffMap));
/// # Ok::<(), tiedraw::Refusal>(())
/// ```
pub fn pick_by_map(
    card: &[u8],
    state: &mut [u32],
    x: i32,
    y: i32,
    shovels: &[u16],
    xs: &[i32],
    ys: &[i32],
) -> Result<Choice, Refusal> {
    version::ensure();
    Choice::of(unsafe {
        ffi::tiedraw_pick_by_map(
            card.as_ptr(),
            card.len(),
            state.as_mut_ptr(),
            state.len(),
            x,
            y,
            shovels.as_ptr(),
            shovels.len(),
            xs.as_ptr(),
            xs.len(),
            ys.as_ptr(),
            ys.len(),
        )
    })
}

/// The numbers of the shovels within a radius of 0 to [`MOST_RADIUS`](crate::MOST_RADIUS) metres around (`x`, `y`), its edge
/// counted, by distance and then by number; shovel i stands at (`xs[i]`, `ys[i]`). The order of the lists makes no
/// difference, and no card is needed.
///
/// Or refusal 12 to 15, as of [`pick_by_map`]; or 25 where a coordinate is off the map, or the radius too great or negative.
///
/// ```
/// // 7 is 5 m away, 4 is 2 m away, 9 is 6 m away
/// let near = tiedraw::within(1, 1, 5, &[7, 4, 9], &[4, -1, 1], &[5, 1, 7])?;
/// assert_eq!(near, [4, 7]);
/// let negative = tiedraw::within(1, 1, -1, &[7], &[4], &[5]);
/// assert_eq!(negative, Err(tiedraw::Refusal::OffMap));
/// # Ok::<(), tiedraw::Refusal>(())
/// ```
pub fn within(
    x: i32,
    y: i32,
    radius: i32,
    shovels: &[u16],
    xs: &[i32],
    ys: &[i32],
) -> Result<Vec<u16>, Refusal> {
    version::ensure();
    let answer = unsafe {
        ffi::tiedraw_within(
            x,
            y,
            radius,
            shovels.as_ptr(),
            shovels.len(),
            xs.as_ptr(),
            xs.len(),
            ys.as_ptr(),
            ys.len(),
        )
    };
    let listed = || answer.shovels[..answer.count.into()].to_vec();
    Refusal::result(answer.refusal).map(|()| listed())
}

impl Place {
    /// The numbers of the shovels within a radius around this place, as [`within`] lists them; or refusal 13 to 15 or 25.
    ///
    /// ```
    /// use tiedraw::{Place, PlacedShovel};
    /// let list = [(21, 950, 500), (12, 800, -350), (7, -200, 400), (4, 500, 500)]
    ///     .map(|(number, x, y)| PlacedShovel { number, place: Place { x, y } });
    /// let truck = Place { x: 200, y: 100 };
    /// // 4 and 7 are 500 m away, 12 is 750, and 21 is 850
    /// assert_eq!(truck.shovels_within(750, &list)?, [4, 7, 12]);
    /// assert_eq!(truck.shovels_within(749, &list)?, [4, 7]);
    /// # Ok::<(), tiedraw::Refusal>(())
    /// ```
    pub fn shovels_within(
        self,
        radius: i32,
        shovels: &[PlacedShovel],
    ) -> Result<Vec<u16>, Refusal> {
        let (numbers, xs, ys) = lists(shovels);
        within(self.x, self.y, radius, &numbers, &xs, &ys)
    }
}

impl Generator {
    /// The shovel nearest to a truck at this place, as [`pick_by_map()`] says; or refusal 13 to 15, 25 or 18. Such picks and
    /// those by times may follow each other in any order.
    ///
    /// ```
    /// use tiedraw::{Card, Generator, Place, PlacedShovel};
    /// let card = Card::new(&[0x27, 2, 2, 1, 2, 3, 0, 1, 0, 0, 0])?;
    /// let mut server = Generator::new(card, &[0, 0])?;
    /// let mut standby = server.clone();
    /// let mut list = [(21, 950, 500), (7, -200, 400), (4, 500, 500)]
    ///     .map(|(number, x, y)| PlacedShovel { number, place: Place { x, y } });
    /// let truck = Place { x: 200, y: 100 };
    /// // 4 and 7 are both 500 m away
    /// let choice = server.pick_by_map(truck, &list)?;
    /// assert_eq!((choice.shovel, choice.ties, choice.taken), (4, 2, 1));
    /// list.reverse();
    /// assert_eq!(standby.pick_by_map(truck, &list)?, choice);
    /// assert_eq!(server, standby);
    /// # Ok::<(), tiedraw::Refusal>(())
    /// ```
    pub fn pick_by_map(
        &mut self,
        truck: Place,
        shovels: &[PlacedShovel],
    ) -> Result<Choice, Refusal> {
        let (numbers, xs, ys) = lists(shovels);
        let card = self.card.bytes();
        pick_by_map(card, &mut self.state, truck.x, truck.y, &numbers, &xs, &ys)
    }
}
