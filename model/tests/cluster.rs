//! The run over random schedules: the right model passes it, and no wrong one does.

use rumbezalo_model::cluster::{run, Options};
use rumbezalo_model::variant::Variant;

fn options(schedules: u64, variant: Variant) -> Options {
    Options {
        schedules,
        seed: 3,
        first: 0,
        variant,
    }
}

#[test]
fn the_right_model_passes() {
    let covered = run(&options(80, Variant::Right)).expect("no schedule fails");
    assert_eq!(covered.schedules, 80);
    assert!(covered.quiets > 80);
    let met = covered.met;
    assert!(met.rename_rename > 0 && met.unlink_rename > 0);
    assert!(met.remove_create > 0 && met.same_name > 0);
    assert!(covered.most_made_live > 3 && covered.deepest > 10);
    for number in [1, 4, 12, 13] {
        assert_eq!(covered.tally.answered(number), 0);
    }
}

#[test]
fn one_seed_gives_one_run() {
    let once = run(&options(10, Variant::Right)).expect("no schedule fails");
    let again = run(&options(10, Variant::Right)).expect("no schedule fails");
    assert_eq!(once.to_string(), again.to_string());
}

/// A run with fewer quiets than were asked for fails.
#[test]
fn fewer_quiets_than_asked_for() {
    let covered = run(&options(10, Variant::Right)).expect("no schedule fails");
    let quiets = covered.quiets;
    assert_eq!(covered.reached(quiets), Ok(()));
    let words = covered.reached(quiets + 1).err().unwrap_or_default();
    assert_eq!(
        words,
        format!("{quiets} quiets were checked, fewer than {}", quiets + 1)
    );
}

#[test]
fn every_wrong_variant_is_caught() {
    for variant in Variant::WRONG {
        let outcome = run(&options(400, variant));
        let words = outcome.err().unwrap_or_default();
        let again = words.contains("to see it again: model cluster --seed 3 --first ");
        assert!(again, "{variant:?}: {words}");
    }
}
