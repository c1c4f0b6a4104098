//! The form of a line: what is `syntax`, and what is just legal.

use super::Maker;
use crate::replay::commas;

/// A legal line of each kind; those of strips are in their own module.
const SAMPLES: [&str; 8] = [
    "check 0803",
    "read 0803",
    "step 00 1,2,3,4",
    "back 00 1,2,3,4",
    "draw 00 1,2,3,4",
    "words 00 1,2,3,4 2",
    "pick 00 1,2,3,4 7,4 300,300",
    "write 2 2 1,2,3,0 1 2 1 1 1 12",
];

/// Put in place of each field in turn; each is legal for some fields and malformed for others.
const FORMS: [&[u8]; 58] = [
    b"",
    b"-",
    b"--",
    b"0",
    b"00",
    b"000",
    b"01",
    b"+1",
    b"-1",
    b"-0",
    b"+",
    b"1.0",
    b"1e1",
    b"1_0",
    b"'1'",
    b"g",
    b"0g",
    b"aB",
    b"Fe",
    b"0x",
    b"0x1",
    b"0xA",
    b"0X1",
    b"00x1",
    b"0x+1",
    b"0x0000000000000000000000001",
    b"0xffffffff",
    b"0x100000000",
    b"0x10000000000000001",
    b"255",
    b"256",
    b"600",
    b"601",
    b"1024",
    b"1025",
    b"65535",
    b"65536",
    b"4294967295",
    b"4294967296",
    b"18446744073709551617",
    b"ffffffff",
    b"FFFFFFFF",
    b"100000000",
    b"10000000000000001",
    b"000000000000000000000000000000000000000002",
    b"1,1",
    b"1,",
    b",1",
    b",",
    b"1,,1",
    b"1,-",
    b"1;1",
    b"1\t",
    b"1\r",
    b"\0",
    b"\xff1",
    "1é".as_bytes(),
    "٣".as_bytes(), // the digit 3 in Arabic
];

/// The same for fields with a sign, places and lists of places.
const SIGNED_FORMS: [&str; 36] = [
    "1:1",
    "0:0",
    "-0:-0",
    "00:-00",
    "-1:1",
    "1:-1",
    "-1:-1",
    "+1:1",
    "1:+1",
    "--1:1",
    "1:--1",
    "1-:1",
    "1:1-",
    "-:1",
    "1:-",
    ":",
    "1:",
    ":1",
    "1::1",
    "1:1:1",
    "1;1",
    "1.1",
    "a:1",
    "0x1:1",
    "1:1e1",
    "2147483647:-2147483648",
    "2147483648:0",
    "0:-2147483649",
    "-2147483648",
    "2147483648",
    "3:4,-5:0",
    "3:4,-5:0,",
    ",3:4,-5:0",
    "3:4,,-5:0",
    "3:4,-",
    "3:4,5,-6:0",
];

/// Lines of other kinds; some are comments.
const LINES: [&[u8]; 43] = [
    b"",
    b" ",
    b"  ",
    b"-",
    b"- -",
    b"0",
    b"00",
    b",",
    b"\t",
    b"\r",
    b"\0",
    b"\x7f",
    b"\x80",
    b"\xff\xfe",
    b"\xef\xbb\xbfcheck 00",
    b"check\xc2\xa000",
    b"check\t00",
    b"check\x0b00",
    b"check,00",
    b"check  00",
    b"Check 00",
    b"checks 00",
    b"chec 00",
    b"check00",
    b"check 00 # comment",
    b"check 00#",
    b"verdict 0",
    b"syntax",
    b"too long",
    b"inspect 00",
    b"encode 00",
    b"step_back 00 0,0,0,0",
    b"draws 00 0,0,0,0 1",
    "chéck 00".as_bytes(),
    b"#",
    b"##",
    b"#check 00",
    b"#\xff\0\r",
    b" # check 00",
    b"\t#",
    b"-#",
    b"word 00 1,2,3,4 2",
    b"quit",
];

/// Lines at the edges: digits of either case, leading zeros, the largest numbers and one more.
const EDGES: &str = "\
check fF
read FF031105030006010702040506452301000200
read ff031105030006010702040506452301000200
step 00 FFFFFFFF,12488421,EDB77BDE,eDb77bDe
back 00 000000000000000001,0,00,000
draw 021D 1FFFFFFF,0,0,0
draw 021d 20000000,0,0,0
draw 00 100000000,0,0,0
draw 00 0,0,0,10000000000000000
words 00 0,0,0,0 00000000000000000001024
words 00 0,0,0,0 01025
pick 00 0,0,0,0 65535,0 4294967295,0
pick 00 0,0,0,0 65535,0 4294967295,4294967296
pick 00 0,0,0,0 65535,65536 1,1
pick 00 0,0,0,0 00065535,000 00000000004294967295,0
pick 00 0,0,0,0 65535,a 1,1
pick 00 0,0,0,0 1,2 1,0xa
write 4 32 3,5,9,13,1,6,11,15,4,0,8,14,10,7,2,12 1 2 306742305 1 1 1
write 004 0032 03,05,09,13,1,6,11,15,4,0,8,14,10,7,2,12 01 02 0x0012488421 01 01 01
write 4 32 3,5,9,13,1,6,11,15,4,0,8,14,10,7,2,12,0 1 2 306742305 1 1 1
write 4 32 3,5,9,13,1,6,11,15,4,0,8,14,10,7,2,256 1 2 306742305 1 1 1
write 4 32 3,5,9,13,1,6,11,15,4,0,8,14,10,7,2,255 1 2 306742305 1 1 1
write 4 32 - 1 2 306742305 1 1 1
write 4 32 3,5,9,13,1,6,11,15,4,0,8,14,10,7,2,12 255 254 0xFFFFFFFF 1 1 7
write 4 32 3,5,9,13,1,6,11,15,4,0,8,14,10,7,2,12 255 254 4294967295 2 0 9
write 4 32 3,5,9,13,1,6,11,15,4,0,8,14,10,7,2,12 255 254 4294967296 2 0 9
write 4 32 3,5,9,13,1,6,11,15,4,0,8,14,10,7,2,12 256 254 1 2 0 9";

pub fn make(maker: &mut Maker) {
    maker.section("form of a line: unknown words, other bytes, comments");
    for line in LINES {
        maker.line(line);
    }
    maker.section("form of a line: case of digits, leading zeros, the largest numbers");
    maker.line(EDGES);
    maker.section("form of a line: blanks, and too few or too many fields");
    for sample in SAMPLES {
        blanks_and_counts(maker, sample);
    }
    maker.section("form of a line: each field in many forms");
    for sample in SAMPLES {
        forms(maker, sample);
    }
    long_fields(maker);
}

/// The sample with blanks and other bytes around it, with fields more and fields less.
pub fn blanks_and_counts(maker: &mut Maker, sample: &str) {
    maker.line(sample);
    maker.line(sample.to_uppercase());
    for (front, back) in [(" ", ""), ("", " "), ("", "\r"), ("", "\t"), ("", "\0")] {
        maker.line(format!("{front}{sample}{back}"));
    }
    for more in ["0", "-", "00"] {
        maker.line(format!("{sample} {more}"));
    }
    let fields: Vec<&str> = sample.split(' ').collect();
    for place in 0..fields.len() {
        maker.line(fields[..place + 1].join(" "));
        maker.line([&fields[..place], &fields[place + 1..]].concat().join(" "));
        maker.line(
            [&fields[..place], &[""], &fields[place..]]
                .concat()
                .join(" "),
        );
    }
}

/// The sample with each form in place of each field.
pub fn forms(maker: &mut Maker, sample: &str) {
    for place in 1..sample.split(' ').count() {
        forms_at(maker, sample, place);
    }
}

/// The sample with each form in place of one field.
pub fn forms_at(maker: &mut Maker, sample: &str, place: usize) {
    let mut fields: Vec<&[u8]> = sample.split(' ').map(str::as_bytes).collect();
    for form in FORMS {
        fields[place] = form;
        maker.line(fields.join(&b' '));
    }
}

/// The sample with each form of a number with a sign, of a place and of places in place of one field.
pub fn signed_forms_at(maker: &mut Maker, sample: &str, place: usize) {
    let mut fields: Vec<&str> = sample.split(' ').collect();
    for form in SIGNED_FORMS {
        fields[place] = form;
        maker.line(fields.join(" "));
    }
}

/// The longest fields, and a byte or a number more.
fn long_fields(maker: &mut Maker) {
    maker.section("form of a line: 600 and 601 bytes or numbers, 16 and 17 entries, many zeros");
    for count in [600, 601] {
        let card = "00".repeat(count);
        let list = commas(vec![0; count]);
        for call in ["check", "read"] {
            maker.line(format!("{call} {card}"));
            maker.line(format!("{call} {card}0"));
        }
        for (call, rest) in [("step", ""), ("back", ""), ("draw", ""), ("words", " 0")] {
            maker.line(format!("{call} {card} 0,0,0,0{rest}"));
            maker.line(format!("{call} 00 {list}{rest}"));
        }
        maker.line(format!("pick {card} 0,0,0,0 1 1"));
        maker.line(format!("pick 00 {list} 1 1"));
        maker.line(format!("pick 00 0,0,0,0 {list} {list}"));
        maker.line(format!("pick 00 0,0,0,0 {list} 1"));
        maker.line(format!("pick 00 0,0,0,0 1 {list}"));
        maker.line(format!("write 4 32 {list} 1 2 1 1 1 {count}"));
    }
    let zeros = "0".repeat(700);
    maker.line(format!("words 00 {zeros}1,2,3,4 {zeros}2"));
    maker.line(format!("pick 00 1,2,3,4 {zeros}7,4 300,{zeros}300"));
    maker.line(format!("write 2 {zeros}2 1,2,3,0 1 2 0x{zeros}1 1 1 12"));
    for count in [15, 16, 17] {
        let table = commas(vec![0; count]);
        maker.line(format!("write 2 2 {table} 1 2 1 1 1 12"));
    }
}
