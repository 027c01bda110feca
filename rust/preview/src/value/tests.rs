use super::*;
use numfmt::Table;

fn as_number(coefficient: i64, scale: u32) -> Result<Value<'static>, Misread> {
    Ok(Value::Number { coefficient, scale })
}

fn as_instant(day: u32, millisecond: u32) -> Result<Value<'static>, Misread> {
    Ok(Value::Instant { day, millisecond })
}

#[test]
fn a_value_is_what_it_reads_as() {
    assert_eq!(read(None, "12000"), as_number(12000, 0));
    assert_eq!(read(None, "-0.30"), as_number(-30, 2));
    assert_eq!(read(None, "2024-10-14"), as_instant(45579, 0));
    assert_eq!(
        read(None, "2024-10-14 16:36"),
        as_instant(45579, 59_760_000)
    );
    assert_eq!(
        read(None, "2024-10-14T16:36:03"),
        as_instant(45579, 59_763_000)
    );
    assert_eq!(
        read(None, "2024-10-14 16:36:03.75"),
        as_instant(45579, 59_763_750)
    );
    assert_eq!(read(None, "45579/59763750"), as_instant(45579, 59_763_750));
    for text in [
        "",
        "-",
        "closed",
        "café",
        "1/2/3",
        "2024-10-14 was fine",
        "555-12-34",
        "1e5",
        "5%",
    ] {
        assert_eq!(read(None, text), Ok(Value::Text(text)));
    }
}

#[test]
fn what_is_nearly_a_number_is_told() {
    for written in [".5", "5.", "1,000", "+5", "1.2.3", "-.5", "\u{2212}5"] {
        assert_eq!(read(None, written), Err(Misread::NumberOrText), "{written}");
        assert_eq!(
            read(Some(Kind::Number), written),
            Err(Misread::Number),
            "{written}"
        );
        assert_eq!(read(Some(Kind::Text), written), Ok(Value::Text(written)));
    }
}

#[test]
fn a_date_that_is_none_is_told() {
    for written in [
        "2023-02-29",
        "1899-12-31",
        "2024-13-01",
        "2024-00-01",
        "2024-10-00",
        "2100-02-29",
    ] {
        assert_eq!(read(None, written), Err(Misread::Day), "{written}");
    }
    for written in [
        "2024-10-14 24:00",
        "2024-10-14 16:60",
        "2024-10-14 16:36:60",
    ] {
        assert_eq!(
            read(Some(Kind::Instant), written),
            Err(Misread::Time),
            "{written}"
        );
    }
    assert_eq!(read(Some(Kind::Instant), "12000"), Err(Misread::Instant));
    assert_eq!(
        read(Some(Kind::Instant), "2024-10-14 16:36:03."),
        Err(Misread::Instant)
    );
}

#[test]
fn a_number_too_large_to_hold_is_out_of_range() {
    let table = Table::prepare("0;@").unwrap();
    let dates = Table::prepare("d").unwrap();
    for written in [
        "1000000000000000",
        "-99999999999999999999999",
        "0.0000000000000000",
    ] {
        let value = number(written).unwrap();
        assert_eq!(
            table.show(&value).unwrap_err().answer,
            numfmt::Answer::Range,
            "{written}"
        );
    }
    for written in [
        "2958466/0",
        "0/86400000",
        "99999999999999999999999/0",
        "0/4294967296",
    ] {
        let value = day_and_millisecond(written).unwrap();
        assert_eq!(
            dates.show(&value).unwrap_err().answer,
            numfmt::Answer::Range,
            "{written}"
        );
    }
    assert_eq!(number("0000000000000000000000007"), as_number(7, 0).ok());
}

/// The library shows each day's date, and the date reads as the day: every day of the first 500 years, and then every 29th.
#[test]
fn dates_are_those_that_the_library_shows() {
    let table = Table::prepare("yyyy-mm-dd").unwrap();
    let later = (182_622..2_958_465).step_by(29);
    for day in (1..182_622).chain(later).chain([2_958_465]) {
        let date = table.show_instant(day, 0).unwrap().text;
        assert_eq!(read(None, &date), as_instant(day, 0), "{date}");
    }
}
