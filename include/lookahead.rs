//! The library's calls and what they answer, declared for Rust. `lookahead.h`
//! beside this file explains them: lists, refusals with the record to open,
//! parameters, kernels, endings and classes, an item in memory, the form of a
//! text, which items of two files stay in their pool, and how far multipliers can
//! be from the best.
#![allow(dead_code)]

pub const LOOKAHEAD_MOST_ITEMS: usize = 256;
pub const LOOKAHEAD_MOST_FILE: usize = 32 + 20 * LOOKAHEAD_MOST_ITEMS;
pub const LOOKAHEAD_FEATURES: usize = 16;

#[derive(Clone, Copy, Debug, PartialEq, Eq)]
#[repr(C)]
pub struct LookaheadAnswer {
    pub number: u8,
    pub record: u16,
}

pub const LOOKAHEAD_REFUSED_LENGTH: u8 = 1;
pub const LOOKAHEAD_REFUSED_HEADER: u8 = 2;
pub const LOOKAHEAD_REFUSED_NEXT_OVER: u8 = 3;
pub const LOOKAHEAD_REFUSED_NEXT_MET: u8 = 16;
pub const LOOKAHEAD_REFUSED_RECORD: u8 = 4;
pub const LOOKAHEAD_REFUSED_LABELS: u8 = 5;
pub const LOOKAHEAD_REFUSED_TEXT: u8 = 11;
pub const LOOKAHEAD_REFUSED_LINES: u8 = 12;
pub const LOOKAHEAD_REFUSED_UNLIKE: u8 = 14;
pub const LOOKAHEAD_REFUSED_POOL: u8 = 15;
pub const LOOKAHEAD_REFUSED_COUNT: u8 = 6;
pub const LOOKAHEAD_REFUSED_CEILING: u8 = 7;
pub const LOOKAHEAD_REFUSED_BALANCE: u8 = 8;
pub const LOOKAHEAD_REFUSED_FEATURE: u8 = 9;
pub const LOOKAHEAD_REFUSED_OUTPUT: u8 = 10;

pub const LOOKAHEAD_LINEAR: u8 = 0;
pub const LOOKAHEAD_SQUARE: u8 = 1;
pub const LOOKAHEAD_OVERLAP: u8 = 2;

#[derive(Clone, Copy, Debug, PartialEq, Eq)]
#[repr(C)]
pub struct LookaheadParameters {
    pub used: usize,
    pub kernel: u8,
    pub grid: u32,
    pub ceiling: u32,
    pub second_ceiling: u32,
    pub tolerance: u64,
    pub budget: u32,
}

#[derive(Clone, Copy, Debug, PartialEq, Eq)]
#[repr(C)]
pub struct LookaheadReading {
    pub answer: LookaheadAnswer,
    pub items: usize,
    pub parameters: LookaheadParameters,
}

pub const LOOKAHEAD_CONVERGED: u8 = 1;
pub const LOOKAHEAD_STUCK: u8 = 2;
pub const LOOKAHEAD_SPENT: u8 = 3;

pub const LOOKAHEAD_LOOKED_UP: u8 = 1;
pub const LOOKAHEAD_PASSED_OVER: u8 = 2;
pub const LOOKAHEAD_UNDECIDED: u8 = 3;

/// Its label is `LOOKAHEAD_LOOKED_UP` or `LOOKAHEAD_PASSED_OVER`.
#[derive(Clone, Copy, Debug, PartialEq, Eq)]
#[repr(C)]
pub struct LookaheadItem {
    pub features: [i8; LOOKAHEAD_FEATURES],
    pub label: i8,
}

// An item has no gap, so that its label, the last field, is byte 16.
const _: () = assert!(std::mem::size_of::<LookaheadItem>() == 17);
const _: () = assert!(std::mem::align_of::<LookaheadItem>() == 1);

extern "C" {
    pub fn lookahead_read(
        file: *const u8,
        file_len: usize,
        order: *mut u16,
        order_len: usize,
    ) -> LookaheadReading;
    pub fn lookahead_train(
        file: *const u8,
        file_len: usize,
        multipliers: *mut u32,
        multipliers_len: usize,
        gradient: *mut i64,
        gradient_len: usize,
        ending: *mut u8,
        steps: *mut u32,
        lower: *mut i64,
        upper: *mut i64,
    ) -> LookaheadAnswer;
    pub fn lookahead_certify(
        file: *const u8,
        file_len: usize,
        multipliers: *const u32,
        multipliers_len: usize,
        lower: *mut i64,
        upper: *mut i64,
    ) -> LookaheadAnswer;
    pub fn lookahead_classify(
        file: *const u8,
        file_len: usize,
        multipliers: *const u32,
        multipliers_len: usize,
        word: *const i8,
        word_len: usize,
        class: *mut u8,
    ) -> LookaheadAnswer;
    pub fn lookahead_write(
        parameters: LookaheadParameters,
        items: *const LookaheadItem,
        items_len: usize,
        output: *mut u8,
        output_len: usize,
        length: *mut usize,
    ) -> LookaheadAnswer;
    pub fn lookahead_import(
        parameters: LookaheadParameters,
        text: *const u8,
        text_len: usize,
        output: *mut u8,
        output_len: usize,
        length: *mut usize,
    ) -> LookaheadAnswer;
    pub fn lookahead_pool(
        older: *const u8,
        older_len: usize,
        newer: *const u8,
        newer_len: usize,
        output: *mut u8,
        output_len: usize,
        length: *mut usize,
    ) -> LookaheadAnswer;
}
