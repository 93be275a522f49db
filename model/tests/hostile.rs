//! The run over hostile tables and messages reaches all that can be reached.

use rumbezalo_model::hostile::{run, Options};

#[test]
fn all_that_can_be_reached_is() {
    let options = Options {
        tables: 1_500,
        messages: 3_000,
        seed: 5,
    };
    let tried = run(&options).expect("no call fails");
    assert_eq!(tried.complete(), Ok(()));
    for number in [12, 13] {
        let receives = tried.tally.of(9, number);
        assert_eq!(tried.tally.answered(number), receives);
    }
}

#[test]
fn what_was_not_reached_is_named() {
    let options = Options {
        tables: 1,
        messages: 1,
        seed: 5,
    };
    let tried = run(&options).expect("no call fails");
    let words = tried.complete().expect_err("too little was tried");
    assert!(words.contains("receive 13") && words.contains("IdTwice"));
    assert!(!words.contains("unlink 16") && !words.contains("EntryMadeLive"));
}
