//! The structs and functions of `include/valvepigeon.h`, as C has them.

/// A formula's fields. A field that the kind has not is 0, and so is each word past the last; the record writer ignores them.
///
/// Later kinds may bring fields of their own: write `..Fields::default()` for the rest.
#[repr(C)]
#[derive(Clone, Copy, Debug, Default, PartialEq, Eq)]
pub struct Fields {
    /// The code of the record's kind.
    pub kind: u16,
    /// The formula's number.
    pub number: u16,
    /// The low end of the interval, a word.
    pub lo: i32,
    /// The high end of the interval, a word.
    pub hi: i32,
    /// The count of a polynomial, odd and even ones included, the numerator's count or the fraction's depth.
    pub p: u16,
    /// The divisor's count.
    pub q: u16,
    /// The fraction's mode.
    pub mode: u16,
    /// The coefficients in stored order: p of a polynomial, odd and even ones included, p + q of a rational, 2 p + 1 of a fraction, none of a root.
    pub words: [i32; 32],
}

#[repr(C)]
pub struct Counted {
    pub refused: u32,
    pub place: u64,
    pub count: u16,
}

#[repr(C)]
pub struct Found {
    pub refused: u32,
    pub place: u64,
    pub fields: Fields,
}

#[repr(C)]
pub struct Worked {
    pub refused: u32,
    pub place: u64,
    pub word: i32,
    pub steps: u16,
    pub exact: u16,
}

#[repr(C)]
pub struct Shown {
    pub refused: u32,
    pub place: u64,
    pub value: f64,
    pub steps: u16,
    pub exact: u16,
}

#[repr(C)]
pub struct Ends {
    pub refused: u32,
    pub place: u64,
    pub low: f64,
    pub high: f64,
}

#[repr(C)]
pub struct Written {
    pub refused: u32,
    pub place: u64,
    pub length: u64,
}

unsafe extern "C" {
    pub fn vp_count(sheet: *const u8, length: usize) -> Counted;
    pub fn vp_formula(sheet: *const u8, length: usize, number: u16) -> Found;
    pub fn vp_evaluate(sheet: *const u8, length: usize, number: u16, argument: i32) -> Worked;
    pub fn vp_evaluate_double(sheet: *const u8, length: usize, number: u16, argument: f64) -> Shown;
    pub fn vp_sine(sheet: *const u8, length: usize, number: u16, angle: u32) -> Worked;
    pub fn vp_cosine(sheet: *const u8, length: usize, number: u16, angle: u32) -> Worked;
    pub fn vp_interval(sheet: *const u8, length: usize, number: u16) -> Ends;
    pub fn vp_write_record(fields: Fields, out: *mut u8, room: usize) -> Written;
    pub fn vp_write_sheet(run: *const u8, run_length: usize, out: *mut u8, room: usize) -> Written;
    pub safe fn vp_message(refused: u32) -> *const std::ffi::c_char;
}
