//! Answers as results: each number has one reason, and a refusal says its number, its meaning and its place.

use lugloquat::{empty, read_plan, sys::Answer, validate, word_count, Reason, Refusal};

#[test]
fn an_answer_is_a_value_or_a_refusal() {
    let answer = |number, place, value| Answer { number, place, value }.result();
    assert_eq!(answer(0, 0, 7), Ok(7));
    let (reason, place) = (Reason::Cycle, 2);
    assert_eq!(answer(8, 2, 0), Err(Refusal { reason, place }));
}

#[test]
fn the_words_of_a_sheet_are_counted_for_every_n() {
    assert_eq!(
        [0, 1, 5, 64, 1 << 32, usize::MAX].map(word_count),
        [0, 2, 30, 4160, usize::MAX, usize::MAX]
    );
}

#[test]
fn numbers_1_to_14_have_a_reason() {
    for number in 0..100 {
        assert_eq!(
            Reason::from_number(number).map(Reason::number),
            (1..=14).contains(&number).then_some(number)
        );
    }
}

#[test]
fn a_refusal_says_why() {
    let refused = validate(65, &[]).unwrap_err();
    assert_eq!(refused, Refusal { reason: Reason::Vertices, place: 0 });
    assert_eq!(refused.to_string(), "refused 1: n is not 1 to 64");
}

#[test]
fn a_refusal_says_at_which_record() {
    let mut sheet = [0; word_count(2)];
    assert_eq!(empty(2, &mut sheet), Ok(0));
    let refused = read_plan(2, &mut sheet, b"L 00 01\nL 01 00\n").unwrap_err();
    assert_eq!(refused, Refusal { reason: Reason::Cycle, place: 2 });
    assert_eq!(refused.to_string(), "record 2 refused 8: a cycle");
    let refused = read_plan(2, &mut sheet, b"L 00 01\nL 01 00").unwrap_err();
    assert_eq!(refused, Refusal { reason: Reason::PlanLength, place: 0 });
    assert_eq!(
        refused.to_string(),
        "refused 13: a plan's length is not a multiple of 8, or over 32,768 bytes"
    );
}

#[test]
fn a_refusal_is_an_error() {
    fn asks() -> Result<u64, Box<dyn std::error::Error>> {
        Ok(validate(1, &[])?)
    }
    assert_eq!(asks().unwrap_err().to_string(), "refused 2: the sheet isn't n + n × n words");
}
