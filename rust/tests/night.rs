//! The example of the night shift for a second: forty lobbies, three workers that misbehave, and no picture that differs or stands still.
#[allow(dead_code)]
#[path = "../../examples/night.rs"]
#[rustfmt::skip]
mod night;

use std::time::Duration;

#[test]
fn no_worker_stands_still_and_every_picture_is_right() {
    let told = night::run(Duration::from_secs(1), 3);
    assert_eq!(told.len(), 3);
    for one in &told {
        assert_eq!((one.differing, one.empty_turns, one.stood_still), (0, 0, Duration::ZERO));
        assert!(one.is_good() && one.compared == one.finished);
        assert!(one.done > 0 && one.abandoned > 0, "{} macroblocks done and {} abandoned", one.done, one.abandoned);
    }
    let all = |of: &dyn Fn(&night::Told) -> u64| told.iter().map(of).sum::<u64>();
    assert!(all(&|t| t.finished) > 40, "{} pictures finished", all(&|t| t.finished));
    // Places, repetitions, early offers and garbage: every refusal that a picture of its own memory can meet.
    for number in 2..=8 {
        assert!(all(&|t| t.refused[number]) > 0, "refusal {number} was never met");
    }
    assert_eq!(all(&|t| t.refused[1] + t.refused[9]), 0);
}
