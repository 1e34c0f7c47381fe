//! Valvepigeon from Rust: formula sheets, and the fixed-point arithmetic behind them.
//!
//! A word is a whole number from -2147483647 to 2147483647, and stands for itself divided by 2^24. Every function takes any
//! bytes, numbers and arguments, and ends with an answer or a [`Refusal`]. *The sheet's own* refusals are 1 to 9 and 14, which
//! comes directly after 6.
//!
//! ```
//! # fn main() -> Result<(), valvepigeon::Refusal> {
//! use valvepigeon::{evaluate, evaluate_double, write_record, write_sheet, Fields, LONGEST_RECORD, ROOT, SHEET_ADDS};
//!
//! let root = Fields { kind: ROOT, number: 1, lo: 0, hi: 33554432, ..Fields::default() };
//! let mut record = [0; LONGEST_RECORD];
//! let length = write_record(&root, &mut record)?;
//! let mut sheet = vec![0; length + SHEET_ADDS];
//! write_sheet(&record[..length], &mut sheet)?;
//! let two = evaluate(&sheet, 1, 33554432)?;
//! // By Heron's rule: 2^25 (by chance the argument too), 25165824, 23767722, 23726602, 23726566, and the fifth step changes nothing.
//! assert_eq!((two.word, two.steps, two.exact), (23726566, 5, false));
//! // 8388608 squared is 4194304 times 2^24.
//! assert!(evaluate(&sheet, 1, 4194304)?.exact);
//! assert_eq!(evaluate_double(&sheet, 1, 2.0)?.value, 1.41421353816986083984375);
//! assert_eq!(evaluate_double(&sheet, 1, 2.5).unwrap_err().number, valvepigeon::ARGUMENT_OUTSIDE);
//! # Ok(())
//! # }
//! ```
//!
//! The library is for x86-64 Linux. `./build-library` makes it in the repository, where a package that names this one by its
//! path finds it: `valvepigeon = { path = ".../bindings/rust" }`. Elsewhere the variable `VALVEPIGEON_LIBRARY_DIR` names the
//! folder of `libvalvepigeon.a`, or pkg-config knows it. Its version has to be 2.2.0 or a later 2.x: an older library takes blank
//! formulas, and one before 2.1.0 does not set `exact`.

#![warn(missing_docs)]

mod raw;

pub use raw::Fields;
use std::fmt;

/// The kind of a polynomial's record, in [`Fields::kind`].
pub const POLYNOMIAL: u16 = 0x0010;
/// The kind of a rational's record.
pub const RATIONAL: u16 = 0x0011;
/// The kind of a continued fraction's record.
pub const FRACTION: u16 = 0x0012;
/// The kind of a root's record.
pub const ROOT: u16 = 0x0013;
/// The kind odd, whose words are the coefficients of x, x^3, x^5, ...
pub const ODD: u16 = 0x0014;
/// The kind even, whose words are the coefficients of 1, x^2, x^4, ...
pub const EVEN: u16 = 0x0015;

/// No record is longer: a buffer of so many bytes is enough for any.
pub const LONGEST_RECORD: usize = 120;
/// What a sheet adds to its run of records, in bytes.
pub const SHEET_ADDS: usize = 16;
/// How many formulas a sheet has at most.
pub const MOST_FORMULAS: usize = 64;

/// Refusal 1; [`Refusal::message`] says what it means.
pub const CUT_SHORT: u32 = 1;
/// Refusal 2.
pub const WRONG_LENGTH: u32 = 2;
/// Refusal 3.
pub const WRONG_KIND: u32 = 3;
/// Refusal 4.
pub const WRONG_COUNT: u32 = 4;
/// Refusal 5.
pub const NUMBER_NOT_ABOVE: u32 = 5;
/// Refusal 6.
pub const WRONG_VALUE: u32 = 6;
/// Refusal 7.
pub const RANGE_LEFT: u32 = 7;
/// Refusal 8.
pub const DIVISOR_ZERO: u32 = 8;
/// Refusal 9.
pub const BYTES_AFTER_END: u32 = 9;
/// Refusal 10.
pub const ARGUMENT_OUTSIDE: u32 = 10;
/// Refusal 11.
pub const NO_SUCH_FORMULA: u32 = 11;
/// Refusal 12.
pub const BUFFER_TOO_SHORT: u32 = 12;
/// Refusal 13.
pub const NOT_FINITE: u32 = 13;
/// Refusal 14.
pub const BLANK_FORMULA: u32 = 14;
/// Refusal 15.
pub const NO_SINE: u32 = 15;

/// A refusal: its number and its place.
#[derive(Clone, Copy, Debug, PartialEq, Eq)]
pub struct Refusal {
    /// Its number, one of the constants of this crate.
    pub number: u32,
    /// The first byte of the record at fault, or the first byte too many; 0 where no byte is at fault.
    pub place: u64,
}

impl Refusal {
    /// What is wrong and what to do, in a sentence.
    pub fn message(&self) -> &'static str {
        // The library gives each number a text of its own that stays, and ends in a zero byte.
        let text = unsafe { std::ffi::CStr::from_ptr(raw::vp_message(self.number)) };
        text.to_str().unwrap_or_default()
    }
}

impl fmt::Display for Refusal {
    fn fmt(&self, f: &mut fmt::Formatter<'_>) -> fmt::Result {
        write!(f, "refused {} at {}: {}", self.number, self.place, self.message())
    }
}

impl std::error::Error for Refusal {}

/// A formula's answer, a word.
#[derive(Clone, Copy, Debug, PartialEq, Eq)]
#[non_exhaustive]
pub struct Worked {
    /// The answer.
    pub word: i32,
    /// How many steps Heron's rule took to a root, the last one included: at most 7. It is 0 for the argument 0, for every other
    /// kind, and in sines and cosines.
    pub steps: u16,
    /// Whether no product and no quotient on the way was rounded, so that the word is exactly the formula's value; of a root,
    /// whether its square is the argument, both in ones. A square of the argument that the formula's rule does not use does not
    /// count. A sine or cosine is exact only where the angle is a multiple of 64, since any other is rounded.
    pub exact: bool,
}

/// A formula's answer as a double.
#[derive(Clone, Copy, Debug, PartialEq)]
#[non_exhaustive]
pub struct Shown {
    /// Exactly the answer word divided by 2^24; zero is plus zero.
    pub value: f64,
    /// How many steps Heron's rule took to a root, as [`Worked::steps`] says.
    pub steps: u16,
    /// As [`Worked::exact`] says, and only where the argument is a whole number of steps of 2^-24: any other is rounded, and then no
    /// answer is exact, not even one that does not use it.
    pub exact: bool,
}

/// A formula's interval, each end exactly its word divided by 2^24.
#[derive(Clone, Copy, Debug, PartialEq)]
#[non_exhaustive]
pub struct Ends {
    /// The low end.
    pub low: f64,
    /// The high end.
    pub high: f64,
}

fn answer<T>(refused: u32, place: u64, value: T) -> Result<T, Refusal> {
    if refused == 0 {
        Ok(value)
    } else {
        Err(Refusal { number: refused, place })
    }
}

fn worked(r: raw::Worked) -> Result<Worked, Refusal> {
    answer(r.refused, r.place, Worked { word: r.word, steps: r.steps, exact: r.exact != 0 })
}

// In each call below a slice lends its own pointer and length, and no function keeps a pointer, or reads or writes outside
// what it is lent.

/// How many formulas the sheet has. The sheet's own refusals.
pub fn count(sheet: &[u8]) -> Result<u16, Refusal> {
    let r = unsafe { raw::vp_count(sheet.as_ptr(), sheet.len()) };
    answer(r.refused, r.place, r.count)
}

/// The sheet's formula of that number. The sheet's own refusals, then 11.
pub fn formula(sheet: &[u8], number: u16) -> Result<Fields, Refusal> {
    let r = unsafe { raw::vp_formula(sheet.as_ptr(), sheet.len(), number) };
    answer(r.refused, r.place, r.fields)
}

/// What the formula of that number answers at a word. The sheet's own refusals, then 11, 10.
pub fn evaluate(sheet: &[u8], number: u16, argument: i32) -> Result<Worked, Refusal> {
    worked(unsafe { raw::vp_evaluate(sheet.as_ptr(), sheet.len(), number, argument) })
}

/// What the formula of that number answers at a double. The sheet's own refusals, then 11, 13, 10.
pub fn evaluate_double(sheet: &[u8], number: u16, argument: f64) -> Result<Shown, Refusal> {
    let r = unsafe { raw::vp_evaluate_double(sheet.as_ptr(), sheet.len(), number, argument) };
    answer(r.refused, r.place, Shown { value: r.value, steps: r.steps, exact: r.exact != 0 })
}

/// The sine of an angle by the formula of that number, an odd one whose interval holds 0 to one, as those for sin(pi x/2). An
/// angle is a part of a turn, which has 2^32 of them; add angles by [`u32::wrapping_add`]. The sheet's own refusals, then 11, 15.
pub fn sine(sheet: &[u8], number: u16, angle: u32) -> Result<Worked, Refusal> {
    worked(unsafe { raw::vp_sine(sheet.as_ptr(), sheet.len(), number, angle) })
}

/// The cosine of an angle: the sine of a quarter more. The sheet's own refusals, then 11, 15.
pub fn cosine(sheet: &[u8], number: u16, angle: u32) -> Result<Worked, Refusal> {
    worked(unsafe { raw::vp_cosine(sheet.as_ptr(), sheet.len(), number, angle) })
}

/// The interval of the formula of that number. The sheet's own refusals, then 11.
pub fn interval(sheet: &[u8], number: u16) -> Result<Ends, Refusal> {
    let r = unsafe { raw::vp_interval(sheet.as_ptr(), sheet.len(), number) };
    answer(r.refused, r.place, Ends { low: r.low, high: r.high })
}

/// Writes a formula record to the start of `out` and gives its length. Bytes beyond it stay. Refusals 3; 2; 6; 14; 7 or 8; then
/// 12, all at place 0.
pub fn write_record(fields: &Fields, out: &mut [u8]) -> Result<usize, Refusal> {
    let r = unsafe { raw::vp_write_record(*fields, out.as_mut_ptr(), out.len()) };
    answer(r.refused, r.place, r.length as usize)
}

/// Writes a start, the run of records and an end to the start of `out`, and gives the sheet's length, the run's plus
/// [`SHEET_ADDS`]. Bytes beyond it stay. Places count from the new sheet's first byte, so the run begins at 8. The sheet's own
/// refusals but 9, then 12.
pub fn write_sheet(run: &[u8], out: &mut [u8]) -> Result<usize, Refusal> {
    let r = unsafe { raw::vp_write_sheet(run.as_ptr(), run.len(), out.as_mut_ptr(), out.len()) };
    answer(r.refused, r.place, r.length as usize)
}
