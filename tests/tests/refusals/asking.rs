//! The figure's refusal, 9, and the planner's, 10.

use super::common::{bench, card_of, plan, refusal};
use trace_card_tests::model::{figure, plan_by_cells, plan_by_limit, MAX_LAYERS};

#[test]
fn the_figure_refuses_by_the_header() {
    let card = bench::card();
    // The planes need not be there.
    for length in [64, 100, 256] {
        let cut = &card[..length];
        assert_eq!(figure(cut, &plan(&[5, 1])), Ok(1));
        assert_eq!(figure(cut, &plan(&[])), Ok(52));
        assert_eq!(figure(cut, &plan(&[6])), Err(refusal(9, [0, 0])));
        assert_eq!(figure(cut, &plan(&[5, 2])), Err(refusal(9, [1, 0])));
        assert_eq!(figure(cut, &plan(&[5, 1, 1])), Err(refusal(9, [2, 0])));
        assert_eq!(
            figure(cut, &[u64::MAX; MAX_LAYERS]),
            Err(refusal(9, [0, 0]))
        );
        for place in 3..MAX_LAYERS {
            let mut past = plan(&[5, 1]);
            past[place] = u64::MAX;
            past[12] = 1;
            let refused = Err(refusal(9, [place as u64, 0]));
            assert_eq!(figure(cut, &past), refused);
        }
    }
    // Nor are they looked at.
    let spoilt = card_of(&bench::LINES, &[0, 255, 255, 0, 0, 0]);
    assert_eq!(figure(&spoilt, &plan(&[5, 1])), Ok(1));
}

#[test]
fn planning_refuses_limits_below_the_step_only() {
    for step in [0_u64, 1, 2, 1000, 65_535] {
        let card = bench::with_line(5, format!("step={step}").as_bytes());
        for limit in [0, step / 2, step.saturating_sub(1), step] {
            let answer = plan_by_limit(&card, limit);
            if limit < step {
                assert_eq!(answer, Err(refusal(10, [0, 0])));
            } else {
                let planned = answer.unwrap();
                assert_eq!((planned.plan, planned.cells), (plan(&[5, 1]), 6));
                assert_eq!(planned.figure, step);
            }
        }
        for limit in [u64::MAX - 1, u64::MAX] {
            let planned = plan_by_limit(&card, limit).unwrap();
            assert_eq!((planned.plan, planned.cells), (plan(&[]), 0));
        }
        for cells in [0, 1, 5, 6, 7, 1 << 32, u64::MAX] {
            let planned = plan_by_cells(&card, cells).unwrap();
            assert!(planned.cells <= cells.min(6));
        }
    }
    // Planes that would be refused by a reading are no matter to the planner.
    let spoilt = card_of(&bench::LINES, &[0, 255, 255, 0, 0, 0]);
    assert_eq!(plan_by_limit(&spoilt, 10).unwrap().plan, plan(&[3]));
}
