//! The library under test, called over its C interface.
//!
//! Everything that is lent stands between random places, which must be found
//! again as they were; the file or both files, the multipliers, the word, the items and
//! the text that a call may only read are looked at afterwards too.

use crate::answer::declared::{
    lookahead_certify, lookahead_classify, lookahead_import, lookahead_pool, lookahead_read,
    lookahead_train, lookahead_write,
};
use crate::answer::{parameters, LookaheadAnswer, LookaheadItem, LookaheadReading, ACCEPTED};
use reference::generate::importing::Importing;
use reference::generate::pooling::Pooling;
use reference::generate::texts::any_byte;
use reference::generate::writing::Writing;
use reference::generate::Random;
use reference::write::Row;

/// Places kept on either side of what is lent.
const MARGIN: usize = 4;

/// A list between random places.
struct Lent<T> {
    places: Vec<T>,
    before: Vec<T>,
    length: usize,
}

impl<T: Copy + PartialEq> Lent<T> {
    fn new(contents: &[T], margin: impl FnMut() -> T) -> Lent<T> {
        let mut places: Vec<T> = std::iter::repeat_with(margin).take(2 * MARGIN).collect();
        places.splice(MARGIN..MARGIN, contents.iter().copied());
        Lent {
            before: places.clone(),
            places,
            length: contents.len(),
        }
    }

    fn read(&self) -> *const T {
        self.places[MARGIN..].as_ptr()
    }

    fn write(&mut self) -> *mut T {
        self.places[MARGIN..].as_mut_ptr()
    }

    fn contents(&self) -> Vec<T> {
        self.places[MARGIN..MARGIN + self.length].to_vec()
    }

    fn margins_kept(&self) -> bool {
        let end = MARGIN + self.length;
        self.places[..MARGIN] == self.before[..MARGIN] && self.places[end..] == self.before[end..]
    }

    fn kept(&self) -> bool {
        self.places == self.before
    }
}

/// All that can be seen after a reading call.
#[derive(Clone, PartialEq, Eq, Debug)]
pub struct ReadAnswer {
    pub returned: LookaheadReading,
    pub order: Vec<u16>,
    pub surroundings_kept: bool,
}

/// All that can be seen after a training call.
#[derive(Clone, PartialEq, Eq, Debug)]
pub struct TrainAnswer {
    pub returned: LookaheadAnswer,
    pub ending: u8,
    pub steps: u32,
    pub lower: i64,
    pub upper: i64,
    pub multipliers: Vec<u32>,
    pub gradient: Vec<i64>,
    pub surroundings_kept: bool,
}

/// All that can be seen after a certifying call.
#[derive(Clone, PartialEq, Eq, Debug)]
pub struct CertifyAnswer {
    pub returned: LookaheadAnswer,
    pub lower: i64,
    pub upper: i64,
    pub surroundings_kept: bool,
}

/// All that can be seen after a classifying call.
#[derive(Clone, PartialEq, Eq, Debug)]
pub struct ClassifyAnswer {
    pub returned: LookaheadAnswer,
    pub class: u8,
    pub surroundings_kept: bool,
}

/// All that can be seen after a writing, an importing or a pooling call.
#[derive(Clone, PartialEq, Eq, Debug)]
pub struct WriteAnswer {
    pub returned: LookaheadAnswer,
    pub length: usize,
    pub output: Vec<u8>,
    pub surroundings_kept: bool,
}

impl WriteAnswer {
    /// What is lent to such a call: a length and an output of so many places.
    pub fn lent(places: usize, random: &mut Random) -> WriteAnswer {
        WriteAnswer {
            returned: ACCEPTED,
            length: random.draw() as usize,
            output: random.bytes(places),
            surroundings_kept: true,
        }
    }
}

/// Calls reading on what `before` holds and gives what stands there after.
pub fn read(file: &[u8], before: &ReadAnswer, random: &mut Random) -> ReadAnswer {
    let file = Lent::new(file, || random.draw() as u8);
    let mut order = Lent::new(&before.order, || random.draw() as u16);
    let mut after = before.clone();
    // SAFETY: every pointer is to a list of the length handed over with it, or
    // to a place of its own.
    after.returned =
        unsafe { lookahead_read(file.read(), file.length, order.write(), order.length) };
    after.order = order.contents();
    after.surroundings_kept = file.kept() && order.margins_kept();
    after
}

/// Calls training on what `before` holds and gives what stands there after.
pub fn train(file: &[u8], before: &TrainAnswer, random: &mut Random) -> TrainAnswer {
    let file = Lent::new(file, || random.draw() as u8);
    let mut multipliers = Lent::new(&before.multipliers, || random.draw() as u32);
    let mut gradient = Lent::new(&before.gradient, || random.draw() as i64);
    let mut after = before.clone();
    // SAFETY: as in `read`.
    after.returned = unsafe {
        lookahead_train(
            file.read(),
            file.length,
            multipliers.write(),
            multipliers.length,
            gradient.write(),
            gradient.length,
            &mut after.ending,
            &mut after.steps,
            &mut after.lower,
            &mut after.upper,
        )
    };
    after.multipliers = multipliers.contents();
    after.gradient = gradient.contents();
    after.surroundings_kept = file.kept() && multipliers.margins_kept() && gradient.margins_kept();
    after
}

/// Calls certifying; the thresholds of `before` stand there ahead of the call.
pub fn certify(
    file: &[u8],
    multipliers: &[u32],
    before: &CertifyAnswer,
    random: &mut Random,
) -> CertifyAnswer {
    let file = Lent::new(file, || random.draw() as u8);
    let multipliers = Lent::new(multipliers, || random.draw() as u32);
    let mut after = before.clone();
    // SAFETY: as in `read`.
    after.returned = unsafe {
        lookahead_certify(
            file.read(),
            file.length,
            multipliers.read(),
            multipliers.length,
            &mut after.lower,
            &mut after.upper,
        )
    };
    after.surroundings_kept = file.kept() && multipliers.kept();
    after
}

/// Calls classifying; the class of `before` stands there ahead of the call.
pub fn classify(
    file: &[u8],
    multipliers: &[u32],
    word: &[i8],
    before: &ClassifyAnswer,
    random: &mut Random,
) -> ClassifyAnswer {
    let file = Lent::new(file, || random.draw() as u8);
    let multipliers = Lent::new(multipliers, || random.draw() as u32);
    let word = Lent::new(word, || random.draw() as i8);
    let mut after = before.clone();
    // SAFETY: as in `read`.
    after.returned = unsafe {
        lookahead_classify(
            file.read(),
            file.length,
            multipliers.read(),
            multipliers.length,
            word.read(),
            word.length,
            &mut after.class,
        )
    };
    after.surroundings_kept = file.kept() && multipliers.kept() && word.kept();
    after
}

/// Calls writing; the length and the output of `before` stand there ahead of the call.
pub fn write(handed: &Writing, before: &WriteAnswer, random: &mut Random) -> WriteAnswer {
    let rows = Lent::new(&handed.rows, || any_row(random));
    let mut output = Lent::new(&before.output, || random.draw() as u8);
    let mut after = before.clone();
    // SAFETY: as in `read`; a row is the memory of an item.
    after.returned = unsafe {
        lookahead_write(
            parameters(&handed.numbers),
            rows.read().cast::<LookaheadItem>(),
            rows.length,
            output.write(),
            output.length,
            &mut after.length,
        )
    };
    after.output = output.contents();
    after.surroundings_kept = rows.kept() && output.margins_kept();
    after
}

/// Calls importing; the length and the output of `before` stand there ahead of the call.
/// Around the text are bytes of the form, too, so that a look past its end shows.
pub fn import(handed: &Importing, before: &WriteAnswer, random: &mut Random) -> WriteAnswer {
    let text = Lent::new(&handed.text, || any_byte(random));
    let mut output = Lent::new(&before.output, || random.draw() as u8);
    let mut after = before.clone();
    // SAFETY: as in `read`.
    after.returned = unsafe {
        lookahead_import(
            parameters(&handed.numbers),
            text.read(),
            text.length,
            output.write(),
            output.length,
            &mut after.length,
        )
    };
    after.output = output.contents();
    after.surroundings_kept = text.kept() && output.margins_kept();
    after
}

/// Calls pooling; the length and the output of `before` stand there ahead of the call.
/// Each file has a memory of its own, or both have one.
pub fn pool(handed: &Pooling, before: &WriteAnswer, random: &mut Random) -> WriteAnswer {
    let own = Lent::new(&handed.older, || random.draw() as u8);
    let newer = Lent::new(&handed.newer, || random.draw() as u8);
    let older = if handed.one_memory { &newer } else { &own };
    let mut output = Lent::new(&before.output, || random.draw() as u8);
    let mut after = before.clone();
    // SAFETY: as in `read`; what two pointers lead to at once may only be read.
    after.returned = unsafe {
        lookahead_pool(
            older.read(),
            older.length,
            newer.read(),
            newer.length,
            output.write(),
            output.length,
            &mut after.length,
        )
    };
    after.output = output.contents();
    after.surroundings_kept = older.kept() && newer.kept() && output.margins_kept();
    after
}

fn any_row(random: &mut Random) -> Row {
    Row::default().map(|_| random.draw() as i8)
}
