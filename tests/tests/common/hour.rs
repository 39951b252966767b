//! A smooth motorway hour, made up: its speeds second by second in hundredths of km/h, a row for each minute.

use trace_card_tests::model::Curve;
use trace_card_tests::random::cases::Case;

/// A hump of this height and then a dip as deep, each a parabola, in so many seconds.
fn swell(second: i64, period: i64, height: i64) -> i64 {
    let half = period / 2;
    let at = second % half;
    let hump = 4 * height * at * (half - at) / (half * half);
    if second % period < half {
        hump
    } else {
        -hump
    }
}

/// 85 km/h with a swell of 3 km/h in 20 minutes, one of 1.2 in 340 seconds and one of 0.25 in 90 seconds.
pub fn sheet() -> Case {
    let speed = |t: i64| 8500 + swell(t, 1200, 300) + swell(t, 340, 120) + swell(t, 90, 25);
    Case {
        rows: 60,
        cols: 60,
        levels: 6,
        curve: Curve::Cubic,
        step: 1,
        samples: (0..3600).map(|t| speed(t) as i32).collect(),
    }
}
