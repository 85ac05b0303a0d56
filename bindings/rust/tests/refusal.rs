//! The refusals: numbers, words and the words of include/iset.h. No archive is needed.
use std::error::Error;

use iset_proved::Refusal;

const HEADER: &str = include_str!("../../../include/iset.h");

/// The words that `iset_refusal_name` of the header returns, in its order.
fn header_words() -> Vec<&'static str> {
    let quoted = |line: &'static str| line.split("return \"").nth(1)?.strip_suffix("\";");
    HEADER.lines().filter_map(quoted).collect()
}

#[test]
fn words() {
    let numbers: Vec<u64> = (1..=15).chain([101, 102]).collect();
    let words = numbers.iter().map(|&number| {
        let why = Refusal::from_number(number).unwrap();
        assert_eq!(why.number(), number);
        assert_ne!(why, Refusal::Unknown(number));
        why.to_string()
    });
    let header = header_words();
    assert_eq!(header[0], "no refusal");
    let expected = header[1..].iter().zip(&numbers);
    assert!(words.eq(expected.map(|(words, number)| format!("{words} ({number})"))));
    assert_eq!(Refusal::NoSuch.to_string(), "no entry in that slot (3)");
}

#[test]
fn unknown_numbers_are_refusals() {
    assert_eq!(Refusal::from_number(0), None);
    for number in [16, 18, 100, 103, u64::MAX] {
        let why = Refusal::from_number(number).unwrap();
        assert_eq!(why, Refusal::Unknown(number));
        assert_eq!(why.number(), number);
        assert_eq!(why.to_string(), format!("unknown refusal ({number})"));
    }
    assert!(HEADER.contains("default: return \"unknown refusal\";"));
}

#[test]
fn errors() {
    fn failing() -> Result<(), Box<dyn Error + Send + Sync>> {
        Err(Refusal::Broken)?
    }
    let words = failing().unwrap_err().to_string();
    assert_eq!(words, "the store does not pass the check (2)");
}
