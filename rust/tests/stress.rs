//! The stress program for a second: three workers that compute, forget, commit late, twice and to the wrong picture, and no picture that differs.
#[allow(dead_code)]
#[path = "../../examples/stress.rs"]
#[rustfmt::skip]
mod stress;

use std::time::Duration;

#[test]
fn every_picture_is_right_and_every_answer_foreseen() {
    let told = stress::run(Duration::from_secs(1), 3);
    assert_eq!(told.len(), 3);
    for one in &told {
        assert_eq!((one.differing, one.miscounted, one.unforeseen, one.empty_turns), (0, 0, 0, 0));
        assert!(one.is_good());
    }
    let all = |of: fn(&stress::Told) -> u64| told.iter().map(of).sum::<u64>();
    let met = [all(|t| t.committed), all(|t| t.late), all(|t| t.whole), all(|t| t.abandoned), all(|t| t.done), all(|t| t.foreign)];
    assert!(met.iter().all(|&n| n > 0), "{met:?}");
    assert!(all(|t| t.finished) > 20 && all(|t| t.restarted) > 0 && all(|t| t.garbage) > 0);
}
