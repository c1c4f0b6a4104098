//! Records of ties (document 02, Seven): recorded picks, then the desk and the cab, a module each;
//! here the form of their lines.

mod picks;
mod reads;

use super::{syntax, Maker};
use crate::replay::commas;

/// Truck and shovel numbers, some with a byte of 0 or with two bytes that differ.
const NUMBERS: [u16; 12] = [
    0, 1, 127, 128, 255, 256, 257, 513, 32767, 32768, 65280, 65535,
];

/// A legal line of each kind.
const RECORDED: &str = "recpick 00 1,2,3,4 7,4 300,300 9 24";
const DESK: &str = "desk 0b0102030405";
const CAB: &str = "cab 513 0b0102030405";

/// Lines at the edges: digits of either case, leading zeros, the largest numbers and one more; a
/// line is judged before the call; other names.
const EDGES: &str = "\
recpick 08FF 0A,0,0,0 4,7 1,1 00000000000065535 0024
recpick 00 0,0,0,0 4,7 1,1 65535 600
recpick 00 0,0,0,0 4,7 1,1 65536 24
recpick 00 0,0,0,0 4,7 1,1 9 601
recpick 00 0,0,0,0 4,7 1,1 9 65560
recpick 00 0,0,0,0 4,7 1,1 9 18446744073709551640
recpick 00 0,0,0,0 4,7 1,1 4294967305 24
recpick 00 0,0,0,0 4,7 1,1 0x9 24
recpick 00 0,0,0,0 65536,7 1,1 9 24
recpick 00 0,0,0,0 4,7 1,4294967296 9 24
recpick 00 100000000,0,0,0 4,7 1,1 9 24
recpick 0 0,0,0,0 4,7 1,1 9 24
recpick 0802 0,0,0,0 4,7 1,1 65536 24
recpick 0802 0,0,0,0 4,7 1,1 9 601
recpick - - - - 0 0
recpick - - - - - 0
recpick - - - - 0 -
Recpick 00 0,0,0,0 4,7 1,1 9 24
recpicks 00 0,0,0,0 4,7 1,1 9 24
record 00 0,0,0,0 4,7 1,1 9 24
desk 0FABCDEF0102Ff
desk 0fabcdef0102fF
desk 0fabcdef0102ff0
desk 0x0301020304
desk 03,01,02,03,04
desk 3
desk -
desk --
desk 03 01020304
desks 0301020304
Desk 0301020304
cab 0000000000000000000000513 0301020304
cab 65535 03FFFF0304
cab 65536 0300000304
cab 66049 0301020304
cab 18446744073709552129 0301020304
cab 0x201 0301020304
cab 513, 0301020304
cab 513 0301020304a
cab 513 -
cab - 0301020304
cab - -
cab 65536 -
cab 0301020304 513
cabs 513 0301020304
Cab 513 0301020304";

pub fn make(maker: &mut Maker) {
    picks::make(maker);
    reads::make(maker);
    lines(maker);
}

/// The form of a line, as in the module `syntax`.
fn lines(maker: &mut Maker) {
    maker.section("form of a line: recorded picks, desk and cab");
    maker.line(EDGES);
    for sample in [RECORDED, DESK, CAB] {
        syntax::blanks_and_counts(maker, sample);
    }
    syntax::forms_at(maker, RECORDED, 5);
    syntax::forms_at(maker, RECORDED, 6);
    syntax::forms(maker, DESK);
    syntax::forms(maker, CAB);
    for count in [600, 601] {
        let bytes = "00".repeat(count);
        let list = commas(vec![0; count]);
        maker.line(format!("recpick {bytes} - - - 0 0"));
        maker.line(format!("recpick - {list} - - 0 0"));
        maker.line(format!("recpick - - {list} {list} 0 0"));
        maker.line(format!("desk {bytes}"));
        maker.line(format!("cab 0 {bytes}"));
    }
}
