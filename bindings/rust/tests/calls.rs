//! Calls each function of the binding, on the paper's own sheet, on roots of every number of steps, at ties, on an odd and an even
//! formula, at angles, where answers are exact and where they are rounded, and on blank formulas.

use valvepigeon::*;

const SHEET: [u8; 32] = [
    8, 0, 0, 0, 1, 0, 1, 0, 16, 0, 0, 0, 0x13, 0, 1, 0, 0, 0, 0, 0, 0, 0, 0, 2, 8, 0, 0, 0, 0xff, 0xff, 1, 0,
];

fn root() -> Fields {
    Fields { kind: ROOT, number: 1, hi: 33554432, ..Fields::default() }
}

fn refused<T>(number: u32, place: u64) -> Result<T, Refusal> {
    Err(Refusal { number, place })
}

#[test]
fn counts() {
    assert_eq!(count(&SHEET), Ok(1));
    assert_eq!(count(&[]), refused(1, 0));
    assert_eq!(count(&SHEET[..31]), refused(1, 24));
}

#[test]
fn finds() {
    assert_eq!(formula(&SHEET, 1), Ok(root()));
    assert_eq!(formula(&SHEET, 2), refused(11, 0));
    let ends = interval(&SHEET, 1).unwrap();
    assert_eq!((ends.low, ends.high), (0.0, 2.0));
    assert_eq!(interval(&SHEET, 2), refused(11, 0));
}

#[test]
fn evaluates() {
    let two = evaluate(&SHEET, 1, 33554432).unwrap();
    assert_eq!((two.word, two.steps, two.exact), (23726566, 5, false));
    assert_eq!(evaluate(&SHEET, 1, -1), refused(10, 0));
    assert_eq!(evaluate(&SHEET, 1, i32::MIN), refused(10, 0));
    let two = evaluate_double(&SHEET, 1, 2.0).unwrap();
    assert_eq!((two.value, two.steps, two.exact), (23726566.0 / 16777216.0, 5, false));
    assert_eq!(evaluate_double(&SHEET, 1, f64::NAN), refused(13, 0));
}

#[test]
fn writes_a_record() {
    let mut out = [7u8; LONGEST_RECORD];
    assert_eq!(write_record(&root(), &mut out), Ok(16));
    assert_eq!(out[..16], SHEET[8..24]);
    assert!(out[16..].iter().all(|&b| b == 7));
    assert_eq!(write_record(&root(), &mut out[..15]), refused(12, 0));
    assert_eq!(write_record(&Fields { kind: 1, ..root() }, &mut out), refused(3, 0));
}

#[test]
fn writes_a_sheet() {
    let mut out = [7u8; 33];
    assert_eq!(write_sheet(&SHEET[8..24], &mut out), Ok(32));
    assert_eq!((&out[..32], out[32]), (&SHEET[..], 7));
    assert_eq!(write_sheet(&[], &mut out), refused(4, 0));
    assert_eq!(write_sheet(&SHEET, &mut out), refused(3, 8));
    assert_eq!(write_sheet(&SHEET[8..24], &mut out[..31]), refused(12, 0));
}

const ONE: i32 = 16777216;

/// A formula on -1 to 1 with these coefficients.
fn series(kind: u16, number: u16, coefficients: &[i32]) -> Fields {
    let mut f = Fields { kind, number, lo: -ONE, hi: ONE, p: coefficients.len() as u16, ..Fields::default() };
    f.words[..coefficients.len()].copy_from_slice(coefficients);
    f
}

/// A sheet of one formula.
fn sheet_of(formula: &Fields) -> Vec<u8> {
    let mut record = [0; LONGEST_RECORD];
    let length = write_record(formula, &mut record).unwrap();
    let mut sheet = vec![0; length + SHEET_ADDS];
    write_sheet(&record[..length], &mut sheet).unwrap();
    sheet
}

#[test]
fn counts_the_steps_of_a_root() {
    let sheet = sheet_of(&Fields { hi: i32::MAX, ..root() });
    // arguments with the numbers of Heron's rule, worked out by hand: the last is the root, and there are as many as steps; the
    // most are of 33554433 squared less one; the roots of 0 and of a step are exact, for 4096 squared is 2^24
    let walks: [(i32, &[i32]); 7] = [
        (0, &[]),
        (16777215, &[16777216, 16777215]),
        (3, &[8192, 7168, 7094]),
        (2, &[8192, 6144, 5802, 5792]),
        (1, &[8192, 5120, 4198, 4097, 4096]),
        (4097, &[524288, 327696, 268726, 262255, 262176, 262175]),
        (67108868, &[67108864, 41943040, 34393293, 33564662, 33554434, 33554433, 33554432]),
    ];
    for (argument, numbers) in walks {
        let (last, steps, exact) = (numbers.last().copied().unwrap_or(0), numbers.len() as u16, argument < 2);
        let word = evaluate(&sheet, 1, argument).unwrap();
        assert_eq!((word.word, word.steps, word.exact), (last, steps, exact));
        let double = evaluate_double(&sheet, 1, f64::from(argument) / f64::from(ONE)).unwrap();
        assert_eq!((double.value, double.steps, double.exact), (f64::from(last) / f64::from(ONE), steps, exact));
    }
}

#[test]
fn ties_go_away_from_zero() {
    let sheet = sheet_of(&series(POLYNOMIAL, 1, &[0, ONE]));
    // x itself, at halves of a step
    let step = 1.0 / f64::from(ONE);
    for (argument, value) in [(0.5, 1.0), (-0.5, -1.0), (1.5, 2.0), (-1.5, -2.0)] {
        assert_eq!(evaluate_double(&sheet, 1, argument * step).unwrap().value, value * step);
    }
    for beyond in [1.0 + 0.5 * step, -1.0 - 0.5 * step] {
        assert_eq!(evaluate_double(&sheet, 1, beyond), refused(10, 0));
    }
}

#[test]
fn odd_and_even() {
    let (odd, even) = (series(ODD, 1, &[ONE, -2796203]), series(EVEN, 2, &[ONE, -ONE / 2, 699051]));
    let mut run = [0; 2 * LONGEST_RECORD];
    let first = write_record(&odd, &mut run).unwrap();
    let length = first + write_record(&even, &mut run[first..]).unwrap();
    assert_eq!((first, length, run[4], run[first + 4]), (24, 24 + 28, 0x14, 0x15));
    let mut sheet = vec![0; length + SHEET_ADDS];
    write_sheet(&run[..length], &mut sheet).unwrap();
    assert_eq!((formula(&sheet, 1), formula(&sheet, 2)), (Ok(odd), Ok(even)));
    // x - x^3/6, where the last product is a tie, and 1 - x^2/2 + x^4/24, where -2053461.25 is rounded
    for (number, argument, word) in [(1, ONE / 2, 8039083), (1, -ONE / 2, -8039083), (2, ONE / 2, 14723755), (2, -ONE / 2, 14723755)] {
        let answer = evaluate(&sheet, number, argument).unwrap();
        assert_eq!((answer.word, answer.steps, answer.exact), (word, 0, false));
        let answer = evaluate_double(&sheet, number, f64::from(argument) / f64::from(ONE)).unwrap();
        assert_eq!((answer.steps, answer.exact), (0, false));
    }
    // 12 times 12 is no word
    for kind in [ODD, EVEN] {
        assert_eq!(write_record(&Fields { hi: 12 * ONE, ..series(kind, 1, &[1]) }, &mut run), refused(7, 0));
    }
}

#[test]
fn sines_and_cosines() {
    let mut run = [0; 2 * LONGEST_RECORD];
    let first = write_record(&series(ODD, 1, &[ONE, -2796203]), &mut run).unwrap();
    let length = first + write_record(&series(EVEN, 2, &[ONE]), &mut run[first..]).unwrap();
    let mut sheet = vec![0; length + SHEET_ADDS];
    write_sheet(&run[..length], &mut sheet).unwrap();
    // x - x^3/6 at nought, at one (16777216 - 2796203), at one half, and at ties of the angle
    let quarter = 1u32 << 30;
    for (angle, word, exact) in [
        (0, 0, true), (quarter, 13981013, true), (2 * quarter, 0, true), (3 * quarter, -13981013, true),
        (quarter / 2, 8039083, false), (5 * (quarter / 2), -8039083, false),
        (31, 0, false), (32, 1, false), (96, 2, false), (32u32.wrapping_neg(), -1, false),
    ] {
        for answer in [sine(&sheet, 1, angle).unwrap(), cosine(&sheet, 1, angle.wrapping_sub(quarter)).unwrap()] {
            assert_eq!((answer.word, answer.steps, answer.exact), (word, 0, exact));
        }
    }
    for function in [sine, cosine] {
        assert_eq!(function(&sheet, 2, 0), refused(NO_SINE, 0));
        assert_eq!(function(&sheet, 3, 0), refused(11, 0));
        assert_eq!(function(&SHEET[..31], 1, 0), refused(1, 24));
    }
}

/// The answers of a formula with the number 1, at words and at the doubles that these are, with their marks.
fn marks(formula: &Fields, cases: &[(i32, i32, bool)]) {
    let sheet = sheet_of(formula);
    for &(argument, word, exact) in cases {
        let answer = evaluate(&sheet, 1, argument).unwrap();
        assert_eq!((answer.word, answer.exact), (word, exact));
        let answer = evaluate_double(&sheet, 1, f64::from(argument) / f64::from(ONE)).unwrap();
        assert_eq!((answer.value, answer.exact), (f64::from(word) / f64::from(ONE), exact));
    }
}

#[test]
fn exact_or_rounded() {
    let half = ONE / 2;
    // a step by 1, 1/2 and 0; and a formula that multiplies nothing
    marks(&series(POLYNOMIAL, 1, &[0, 1]), &[(ONE, 1, true), (half, 1, false), (-half, -1, false), (0, 0, true)]);
    marks(&series(POLYNOMIAL, 1, &[9]), &[(1, 9, true)]);
    // only the first product is rounded: half a step, so a step; then 1 + 1 by 1/2
    marks(&series(POLYNOMIAL, 1, &[5, 1, 1]), &[(half, 6, false)]);
    // x over 2; and one and half a step over the same, two roundings that cancel
    marks(&Fields { p: 2, q: 1, ..series(RATIONAL, 1, &[0, ONE, 2 * ONE]) }, &[(2, 1, true), (3, 2, false), (-3, -2, false)]);
    marks(&Fields { p: 2, q: 2, ..series(RATIONAL, 1, &[ONE, 1, ONE, 1]) }, &[(ONE, ONE, true), (half, ONE, false)]);
    marks(&Fields { p: 1, ..series(FRACTION, 1, &[0, ONE, 2 * ONE]) }, &[(2, 1, true), (3, 2, false)]);
    // 4096 steps squared are 2^24, so s is a step; at 4097 it is 8193/2^24 more, and is rounded to a step
    marks(&Fields { p: 1, mode: 1, ..series(FRACTION, 1, &[0, ONE, ONE]) }, &[(4096, 1, true), (4097, 1, false)]);
    // mode 2 does not use s in depth 1, nor do odd and even formulas of one coefficient; else they do, if only by 0
    marks(&Fields { p: 1, mode: 2, ..series(FRACTION, 1, &[0, ONE, ONE]) }, &[(4097, 4097, true)]);
    marks(&series(ODD, 1, &[ONE]), &[(4097, 4097, true)]);
    marks(&series(EVEN, 1, &[9]), &[(4097, 9, true)]);
    marks(&Fields { p: 2, mode: 2, ..series(FRACTION, 1, &[0, ONE, ONE, 0, ONE]) }, &[(4096, 4096, true), (4097, 4097, false)]);
    marks(&series(ODD, 1, &[ONE, 0]), &[(4096, 4096, true), (4097, 4097, false)]);
    marks(&series(EVEN, 1, &[9, 0]), &[(4096, 9, true), (4097, 9, false)]);
    // s is 1/4; the last product is half a step
    marks(&series(ODD, 1, &[1]), &[(half, 1, false)]);
}

#[test]
fn rounded_at_the_door() {
    let step = 1.0 / f64::from(ONE);
    // x, and nine steps, which do not use it
    for (coefficients, at_one, at_nought) in [(&[0, ONE][..], 1.0, 0.0), (&[9][..], 9.0 * step, 9.0 * step)] {
        let sheet = sheet_of(&series(POLYNOMIAL, 1, coefficients));
        for (argument, value, exact) in [
            (1.0, at_one, true), (1.0 - f64::EPSILON / 2.0, at_one, false),
            (-0.0, at_nought, true), (0.25 * step, at_nought, false), (f64::from_bits(1), at_nought, false),
        ] {
            let answer = evaluate_double(&sheet, 1, argument).unwrap();
            assert_eq!((answer.value, answer.exact), (value, exact));
        }
    }
}

#[test]
fn rounded_angles() {
    // x itself, which does not use s: one step has 64 parts of a turn
    let (sheet, quarter) = (sheet_of(&series(ODD, 1, &[ONE])), 1u32 << 30);
    for (angle, word, exact) in [
        (64, 1, true), (63, 1, false), (65, 1, false), (1, 0, false), (64 * 4097, 4097, true),
        (quarter, ONE, true), (quarter + 1, ONE, false), (quarter + 64, ONE - 1, true), (quarter + 65, ONE - 1, false),
        (2 * quarter + 64, -1, true), (2 * quarter + 63, -1, false), (3 * quarter, -ONE, true), (3 * quarter + 1, -ONE, false),
        (64u32.wrapping_neg(), -1, true), (u32::MAX, 0, false),
    ] {
        for answer in [sine(&sheet, 1, angle).unwrap(), cosine(&sheet, 1, angle.wrapping_sub(quarter)).unwrap()] {
            assert_eq!((answer.word, answer.exact), (word, exact));
        }
    }
}

/// Formulas that are blank, and beside each one that nearly is.
fn blank_and_nearly() -> Vec<(Fields, Fields)> {
    let rational = |words: &[i32]| Fields { p: 2, q: 1, ..series(RATIONAL, 1, words) };
    let fraction = |mode, words: &[i32]| Fields { p: words.len() as u16 / 2, mode, ..series(FRACTION, 1, words) };
    let mut last = [0; 16];
    last[15] = 1;
    vec![
        (series(POLYNOMIAL, 1, &[0]), series(POLYNOMIAL, 1, &[-1])),
        (series(POLYNOMIAL, 1, &[0; 16]), series(POLYNOMIAL, 1, &last)),
        (series(ODD, 1, &[0, 0]), series(ODD, 1, &[0, -1])),
        (series(EVEN, 1, &[0, 0]), series(EVEN, 1, &[0, 1])),
        (rational(&[0, 0, ONE]), rational(&[0, 1, ONE])),
        (rational(&[0, 0, -ONE]), rational(&[-1, 0, -ONE])),
        (fraction(0, &[0, 0, ONE]), fraction(0, &[1, 0, ONE])),
        (fraction(2, &[0, 0, ONE, -ONE, 3 * ONE]), fraction(2, &[0, 1, ONE, -ONE, 3 * ONE])),
    ]
}

#[test]
fn a_blank_formula_is_not_written() {
    let mut out = [7u8; LONGEST_RECORD];
    for (blank, nearly) in blank_and_nearly() {
        assert_eq!(write_record(&blank, &mut out), refused(BLANK_FORMULA, 0));
        assert!(out.iter().all(|&b| b == 7));
        // 14 before 12, and 6 before 14
        assert_eq!(write_record(&blank, &mut []), refused(14, 0));
        assert_eq!(write_record(&Fields { lo: ONE + 1, ..blank }, &mut out), refused(6, 0));
        assert_eq!(formula(&sheet_of(&nearly), 1), Ok(nearly));
    }
    // a divisor and a b1 of 0 (8 by themselves), and 12 times 12 (7 by itself)
    let any = Fields { number: 1, hi: ONE, p: 1, ..Fields::default() };
    for (number, blank) in [
        (8, Fields { kind: RATIONAL, q: 1, ..any }),
        (8, Fields { kind: FRACTION, ..any }),
        (7, Fields { kind: FRACTION, mode: 1, hi: 12 * ONE, ..any }),
        (7, Fields { kind: EVEN, hi: 12 * ONE, ..any }),
    ] {
        assert_eq!(write_record(&blank, &mut out), refused(14, 0));
        let mut other = blank;
        other.words[0] = 1;
        assert_eq!(write_record(&other, &mut out), refused(number, 0));
    }
    // a root is never blank
    assert_eq!(write_record(&Fields { hi: 0, ..root() }, &mut out), Ok(16));
}

/// The sheet of a formula with other words, which stand between place 24 or 28 and the end record.
fn with_words(formula: &Fields, words: &[i32]) -> Vec<u8> {
    let mut sheet = sheet_of(formula);
    let (first, end) = (if [RATIONAL, FRACTION].contains(&formula.kind) { 28 } else { 24 }, sheet.len() - 8);
    for (stored, word) in sheet[first..end].chunks_mut(4).zip(words) {
        stored.copy_from_slice(&word.to_le_bytes());
    }
    sheet
}

#[test]
fn a_blank_formula_is_not_read() {
    let mut out = [7u8; 2 * LONGEST_RECORD];
    for (blank, nearly) in blank_and_nearly() {
        let mut sheet = with_words(&nearly, &blank.words);
        assert_eq!(write_sheet(&sheet[8..sheet.len() - 8], &mut out), refused(14, 8));
        assert!(out.iter().all(|&b| b == 7));
        // before 9, 11, 13, 10 and 15
        sheet.push(0);
        assert_eq!(count(&sheet), refused(14, 8));
        assert_eq!(formula(&sheet, 2), refused(14, 8));
        assert_eq!(evaluate(&sheet, 1, ONE + 1), refused(14, 8));
        assert_eq!(evaluate_double(&sheet, 1, f64::NAN), refused(14, 8));
        assert_eq!(interval(&sheet, 1), refused(14, 8));
        assert_eq!(sine(&sheet, 1, 0), refused(14, 8));
        assert_eq!(cosine(&sheet, 1, 0), refused(14, 8));
    }
}

#[test]
fn says_what_to_do() {
    let error: Box<dyn std::error::Error> = Box::new(count(&SHEET[..31]).unwrap_err());
    let said = error.to_string();
    assert!(said.starts_with("refused 1 at 24: ") && said.ends_with('.'), "{said}");
}
