use super::{both_ways, number};
use crate::oracle::decimal::mixed;
use crate::oracle::figures::fraction;
use crate::oracle::fraction::Denominator;
use crate::oracle::{answer, check_table, prepare, units, Value};
use crate::random::Random;

#[test]
fn texts() {
    let cases = [
        ("# ?/?", number(275, 2), "2 3/4"),
        ("?/?", number(-1125, 3), "-9/8"),
        ("# ??/??", number(31416, 4), "3 14/99"),
        ("# ???/???", number(31416, 4), "3 129/911"),
        ("#?/?", number(3875, 4), "2/5"),
        ("0\"x\"0/0", number(16125, 4), "1x3/5"),
        ("#/16", number(203_125, 5), "33/16"),
        ("# #/16", number(203_125, 5), "2 1/16"),
        ("# #/16", number(203_124, 5), "2     "),
        ("0/3", number(5, 1), "2/3"),
        ("# ?/3", number(79, 1), "8    "),
        ("# ?/3_x", number(-79, 1), "-8     "),
        ("??/??", number(4, 2), " 1/25"),
        ("0-0/0", number(-998, 2), "-10-   "),
        ("#-# #/#", number(1255, 1), "12-5 1/2"),
        ("0/0", number(999_999_999_999_999, 0), "999999999999999/1"),
        ("?/?", number(5, 2), " /1"),
        ("?/???", number(5, 2), "1/20 "),
        ("#0 #0/0#?", number(5, 2), "0 1/020"),
        ("0*x 0/4", number(-125, 3), "-0 1/4"),
        ("0 0/4", number(-124, 3), "0    "),
        ("0/4", number(-124, 3), "0/4"),
        ("[>1]# ?/?;0/100", number(5, 3), "1/100"),
        ("?/?;?/?", number(-5, 1), "1/2"),
        ("0 /0/0/", number(15, 1), "1 /1/2/"),
    ];
    for (code, value, expected) in cases {
        assert_eq!(both_ways(code, &value), Ok(expected.to_string()), "{code}");
    }
    let instant = Value::Instant { day: 1, ms: 0 };
    assert_eq!(both_ways("0/8", &instant), Err(answer::SORT));
}

#[test]
fn refusals() {
    let kind = (answer::KIND, 0);
    let limit = (answer::LIMIT, 0);
    let cases = [
        ("0 _x*y0/0", (answer::DONE, 0)),
        ("0_x*y0/0", kind),
        ("0 0*x0/0", kind),
        ("0/0-0", kind),
        ("#/#/#", kind),
        ("?/80#", kind),
        ("0.0/16", kind),
        ("0,0 0/0", kind),
        ("%0/1000", kind),
        ("h 0/8", kind),
        ("0/8A/P", kind),
        ("0/8[Red]", kind),
        ("0/16E-0", kind),
        ("0E+0/16", kind),
        ("0%/16", (answer::TOKEN, 3)),
        ("0/16/16", (answer::TOKEN, 5)),
        ("#;/5", (answer::TOKEN, 3)),
        ("0/08", (answer::TOKEN, 3)),
        ("0;;;0/1000", (answer::STANDING, 3)),
        ("[<1]0/8", (answer::STANDING, 0)),
        ("0/0000", limit),
        ("0/1000", limit),
        ("0/65537", limit),
        ("000000000000000000000/8", limit),
        ("000000000000000000000 0/8", limit),
    ];
    for (code, expected) in cases {
        let prepared = prepare(&units(code), 557);
        assert_eq!((prepared.answer, prepared.place), expected, "{code}");
    }
}

#[test]
fn table_rules() {
    let passes = |items: &[u16]| {
        let mut words = vec![1, 6, 0, 0, 0, 0, 0, 0, 0, 0, 0, 0, items.len() as u16 / 2];
        words.extend(items);
        check_table(&words)
    };
    assert!(passes(&[
        4, 17, 1, 0, 4, 16, 2, 0, 1, 0, 3, 0, 5, 16, 24, 0, 6, 17, 6, 16
    ]));
    assert!(passes(&[4, 16, 24, 0, 25, 999, 3, 0]));
    assert!(!passes(&[4, 16, 2, 0, 3, 0, 5, 16, 24, 0, 6, 16]));
    assert!(!passes(&[4, 16, 1, 0, 5, 17, 24, 0, 6, 16]));
    assert!(!passes(&[4, 16, 24, 0, 1, 0, 25, 8]));
    assert!(!passes(&[4, 16, 24, 0, 6, 16, 25, 8]));
    assert!(!passes(&[4, 16, 24, 0, 6, 16, 1, 0, 6, 16]));
    assert!(!passes(&[4, 16, 24, 0, 25, 1000]));
    assert!(!passes(&[25, 8, 4, 16, 24, 0, 6, 16]));
}

/// Both searches find one fraction, and of all that are allowed none is closer, nor equally close with
/// a smaller denominator.
#[test]
fn no_denominator_comes_closer() {
    let mut random = Random::for_case(4, 0);
    for _ in 0..20_000 {
        let Value::Number { coefficient, scale } = crate::generate::value::number(&mut random)
        else {
            unreachable!("a number was asked for");
        };
        if !number(coefficient, scale).in_range() {
            continue;
        }
        let unit = 10i128.pow(scale);
        let part = i128::from(coefficient.unsigned_abs()) % unit;
        let below = Denominator::Places(random.between(1, 3));
        let (top, bottom) = fraction(part, unit, below);
        let other = mixed(part as i64, scale, false, below);
        assert_eq!(spelled(&other.numerator), top, "{part} {scale}");
        assert_eq!(spelled(&other.denominator), bottom, "{part} {scale}");
        let most = match below {
            Denominator::Places(places) => 10i128.pow(places as u32) - 1,
            Denominator::Fixed(_) => unreachable!("places were drawn"),
        };
        let miss = (part * bottom - top * unit).abs();
        for d in 1..=most {
            for p in [part * d / unit, part * d / unit + 1] {
                let miss_of_p = (part * d - p * unit).abs();
                let farther = miss_of_p * bottom > miss * d;
                let same = miss_of_p * bottom == miss * d && d >= bottom;
                assert!(farther || same, "{p}/{d} for {part} {scale}");
            }
        }
    }
}

fn spelled(digits: &[u8]) -> i128 {
    digits
        .iter()
        .fold(0, |sum, digit| sum * 10 + i128::from(*digit))
}
