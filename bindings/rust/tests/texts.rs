//! The texts of numbers: exact, and read back as the same number.

use hulgyevan::{Element, Number, Reason, Refusal, Remainder};

/// Texts that are given as they are read.
const TEXTS: [&str; 17] = [
    "0",
    "5",
    "-5",
    "12.195",
    "-12.195",
    "0.05",
    "16777216.25",
    "9999999999999",
    "1000000000000",
    "0.000000000001",
    "0.999999999999",
    "1E-13",
    "1.5E-12",
    "1E13",
    "1E-99",
    "9.999999999999E99",
    "-1.000000000001E-1",
];

#[test]
fn texts_of_numbers() {
    for text in TEXTS {
        let number: Number = text.parse().unwrap();
        assert_eq!(number.to_string(), text);
        assert_eq!(format!("{number:?}"), format!("Number({text})"));
    }
    assert_eq!("00012.50 ".parse::<Number>().unwrap().to_string(), "12.5");
    assert_eq!(Number::LARGEST.to_string(), "9.999999999999E99");
    assert_eq!(Number::from_parts(false, 9_999_999_999_999, 99), Ok(Number::LARGEST));
}

#[test]
fn texts_of_words_that_are_no_normal_numbers() {
    assert_eq!(Number::from_word(0).to_string(), "0E-111");
    assert_eq!(Number::from_word(u64::MAX).to_string(), "-4503599627370495E1936");
    assert_eq!(Number::from_word(99 << 52 | 1 << 63).to_string(), "-0E-12");
    assert_eq!(Remainder::from_word(u64::MAX).to_string(), "4503599627370495E1936");
    assert_eq!(Remainder::default().to_string(), "0E0");
}

#[test]
fn texts_of_refusals() {
    for (index, reason) in Reason::ALL.into_iter().enumerate() {
        assert_eq!(usize::from(reason.number()), index + 1);
        assert_eq!(Reason::from_number(reason.number()), Some(reason));
        let refusal = Refusal { reason, place: index };
        assert_eq!(Refusal::from_answer(refusal.answer()), Some(refusal));
        assert_eq!(refusal.to_string(), format!("refused {} {index}", index + 1));
        assert!(!reason.to_string().is_empty());
    }
    assert_eq!(Refusal::from_answer(19), None);
}

#[test]
fn elements_are_numbers_or_texts() {
    let number = Element::from(Number::LARGEST);
    assert_eq!((number.as_number(), number.as_text()), (Some(Number::LARGEST), None));
    let text = Element::text(2, usize::MAX);
    assert_eq!((text.as_number(), text.as_text()), (None, Some((2, usize::MAX))));
}
