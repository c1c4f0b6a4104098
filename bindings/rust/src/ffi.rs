//! The functions and structs of `include/tiedraw.h`, as they stand there. Nothing here compares versions.
#![allow(missing_docs)] // the header has them

use crate::{MOST_BAD_PLACES, MOST_SHOVELS, MOST_WORDS, TABLE_SIZE};

#[repr(C)]
pub struct Card {
    pub words: u8,
    pub width: u8,
    pub odd_power: u8,
    pub even_power: u8,
    pub filter: u8,
    pub sum_term: u8,
    pub constant: u32,
    pub table: [u8; TABLE_SIZE],
}

#[repr(C)]
pub struct Reading {
    pub card: Card,
    pub refusal: u8,
}

#[repr(C)]
pub struct Word {
    pub word: u32,
    pub refusal: u8,
}

#[repr(C)]
pub struct Choice {
    pub shovel: u16,
    pub ties: u8,
    pub taken: u8,
    pub refusal: u8,
}

#[repr(C)]
pub struct MarginAnswer {
    pub seconds: u32,
    pub changed: u16,
    pub shovel: u16,
    pub raised: u8,
    pub ties: u8,
    pub taken: u8,
    pub refusal: u8,
}

#[repr(C)]
pub struct Written {
    pub length: usize,
    pub refusal: u8,
}

#[repr(C)]
pub struct Record {
    pub state: [u32; MOST_WORDS],
    pub truck: u16,
    pub shovel: u16,
    pub ties_given: u8,
    pub ties: u8,
    pub taken_given: u8,
    pub taken: u8,
    pub state_given: u8,
    pub words: u8,
}

#[repr(C)]
pub struct RecordReading {
    pub record: Record,
    pub refusal: u8,
}

#[repr(C)]
pub struct OrderAnswer {
    pub shovel: u16,
    pub refusal: u8,
}

#[repr(C)]
pub struct BitCounts {
    pub balance: i32,
    pub forward: u32,
    pub backward: u32,
    pub runs: u32,
    pub refusal: u8,
}

#[repr(C)]
pub struct WithinAnswer {
    pub shovels: [u16; MOST_SHOVELS],
    pub count: u8,
    pub refusal: u8,
}

#[repr(C)]
pub struct BadPlacesAnswer {
    pub places: [u8; MOST_BAD_PLACES],
    pub count: u8,
    pub refusal: u8,
}

extern "C" {
    pub fn tiedraw_version() -> u32;
    pub fn tiedraw_check(card: *const u8, card_len: usize) -> u8;
    pub fn tiedraw_read(card: *const u8, card_len: usize) -> Reading;
    pub fn tiedraw_bad_places(card: *const u8, card_len: usize) -> BadPlacesAnswer;
    pub fn tiedraw_step(card: *const u8, card_len: usize, state: *mut u32, words: usize) -> u8;
    pub fn tiedraw_step_back(card: *const u8, card_len: usize, state: *mut u32, words: usize)
        -> u8;
    pub fn tiedraw_draw(card: *const u8, card_len: usize, state: *mut u32, words: usize) -> Word;
    pub fn tiedraw_fill(
        card: *const u8,
        card_len: usize,
        state: *mut u32,
        words: usize,
        strip: *mut u32,
        strip_len: usize,
        place: usize,
        count: usize,
    ) -> u8;
    pub fn tiedraw_pick(
        card: *const u8,
        card_len: usize,
        state: *mut u32,
        words: usize,
        shovels: *const u16,
        shovel_count: usize,
        times: *const u32,
        time_count: usize,
    ) -> Choice;
    pub fn tiedraw_pick_recorded(
        card: *const u8,
        card_len: usize,
        state: *mut u32,
        words: usize,
        shovels: *const u16,
        shovel_count: usize,
        times: *const u32,
        time_count: usize,
        truck: u16,
        page: *mut u8,
        page_len: usize,
    ) -> Choice;
    pub fn tiedraw_read_record(record: *const u8, record_len: usize) -> RecordReading;
    pub fn tiedraw_order(truck: u16, record: *const u8, record_len: usize) -> OrderAnswer;
    pub fn tiedraw_margin(
        card: *const u8,
        card_len: usize,
        state: *const u32,
        words: usize,
        shovels: *const u16,
        shovel_count: usize,
        times: *const u32,
        time_count: usize,
    ) -> MarginAnswer;
    pub fn tiedraw_pick_by_map(
        card: *const u8,
        card_len: usize,
        state: *mut u32,
        words: usize,
        x: i32,
        y: i32,
        shovels: *const u16,
        shovel_count: usize,
        xs: *const i32,
        x_count: usize,
        ys: *const i32,
        y_count: usize,
    ) -> Choice;
    pub fn tiedraw_within(
        x: i32,
        y: i32,
        radius: i32,
        shovels: *const u16,
        shovel_count: usize,
        xs: *const i32,
        x_count: usize,
        ys: *const i32,
        y_count: usize,
    ) -> WithinAnswer;
    pub fn tiedraw_count_bits(
        card: *const u8,
        card_len: usize,
        strip: *const u32,
        strip_len: usize,
        page: *mut u8,
        page_len: usize,
    ) -> BitCounts;
    pub fn tiedraw_write(
        words: u8,
        width: u8,
        table: *const u8,
        table_len: usize,
        odd_power: u8,
        even_power: u8,
        constant: u32,
        filter: u8,
        sum_term: u8,
        page: *mut u8,
        page_len: usize,
    ) -> Written;
}
