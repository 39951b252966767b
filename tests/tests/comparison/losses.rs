//! Lines of losses: as they are measured, as no writer measures them, wrong ones, and cards without any; through every
//! call, and written back (docs/CARD.md, "The figure", "Refusals", "The three demands").

use super::both::{
    compare, figure, plan_by_cells, plan_by_limit, preview, read, refine, roll, show, written,
    Slices, B,
};
use super::common::losses::{longest, longest_header, wrong_at, OTHER_LINES, WRONG_LINES};
use super::common::{bench, card_of, figure_by_hand, plan, refusal, sizes_of, whole_in};
use trace_card_tests::boundary::PLAN;
use trace_card_tests::model::{open, Refusal};
use trace_card_tests::random::cases::{Case, CURVES, LARGE_SIZES};
use trace_card_tests::random::losses::{any_losses, most, old, with_losses};
use trace_card_tests::random::plans::plan_within;
use trace_card_tests::random::sheets::{Kind, KINDS};
use trace_card_tests::random::Random;

/// What every call answers to a card that does not open, alone and beside another, whatever else it is given.
fn refused_by_all(card: &[u8]) -> Refusal {
    let none = [0; PLAN];
    let slices = || Slices::holding(&[1; 5]);
    let fine = bench::written_card();
    let pair = || [(); 2].map(|()| slices());
    let refused = [
        show(card, &mut slices()).err(),
        read(card, &none, &mut slices()).err(),
        roll(card, &mut Slices::for_roll(5)).err(),
        compare([card, &fine], &mut pair(), &mut vec![B; 5]).err(),
        compare([&fine, card], &mut pair(), &mut vec![B; 5]).err(),
        refine(card, &none, 0, &mut slices()).err(),
        preview(card, &none, 0, &mut slices().and_next(5)).err(),
        figure(card, &none).err(),
        plan_by_limit(card, 100).err(),
        plan_by_cells(card, 3).err(),
    ];
    let first = refused[0].expect("a card that does not open");
    assert_eq!(refused, [Some(first); 10]);
    first
}

/// 5 where a line has no end, 6 at line 7 for losses and at line 8 for cells, and each before what comes behind it.
#[test]
fn wrong_lines() {
    let behind: [&[u8]; 4] = [b"cells=6\n", b"cells=5\n", b"cells=6", b""];
    for text in WRONG_LINES {
        let line = text.as_bytes();
        let mut start = card_of(&bench::LINES[..6], &[]);
        start.extend(line);
        // "cells=" alone is cut too: nothing is wrong before it has an end.
        assert_eq!(refused_by_all(&start), refusal(5, [0, 0]));
        start.push(10);
        for behind in behind {
            let card = [&start, behind].concat();
            assert_eq!(refused_by_all(&card), refusal(6, [7, 0]), "{text}");
        }
        let card = bench::written_with_line(7, line);
        assert_eq!(refused_by_all(&card), refusal(6, [7, 0]), "{text}");
    }
    for line in [&b"cells=5"[..], b"cells=7", b"cells=06", b"", bench::LOSSES] {
        let card = bench::written_with_line(8, line);
        assert_eq!(refused_by_all(&card), refusal(6, [8, 0]));
    }
    // Losses behind the cells are bytes of the planes.
    let mut lines = bench::LINES.to_vec();
    lines.push(bench::LOSSES);
    let card = card_of(&lines, &bench::CELLS);
    assert_eq!(refused_by_all(&card), refusal(7, [0, 0]));
    for length in 0..bench::WRITTEN_HEADER_BYTES {
        let card = &bench::written_card()[..length];
        assert_eq!(refused_by_all(card), refusal(5, [0, 0]));
    }
    for text in OTHER_LINES {
        let card = bench::written_with_line(7, text.as_bytes());
        assert!(show(&card, &mut Slices::new(5)).is_ok(), "{text}");
    }
}

#[test]
fn the_longest_lines() {
    let most = longest();
    let card = longest_header(&most);
    assert!(figure(&card, &[0; PLAN]).is_ok());
    assert!(plan_by_cells(&card, 500).is_ok());
    for place in 0..most.len() {
        let [larger, missing, twice] = wrong_at(&most, place);
        for wrong in [larger, missing, twice] {
            let answer = figure(&longest_header(&wrong), &[0; PLAN]);
            assert_eq!(answer, Err(refusal(6, [7, 0])), "{place}");
        }
        let mut one_less = most.clone();
        one_less[place] -= 1;
        assert!(figure(&longest_header(&one_less), &[0; PLAN]).is_ok());
    }
}

/// What a card of any kind shows and answers: the figure of every call is that of its own numbers, worked out apart from
/// the model too.
fn check_figures(random: &mut Random, card: &[u8], points: usize) {
    let opened = open(card).unwrap();
    let sizes = sizes_of(&opened);
    let own = |plan| figure_by_hand(&opened, &sizes, &plan);
    let cut = &card[..random.length(opened.header_length, card.len())];
    let shown = show(cut, &mut Slices::new(points)).unwrap();
    assert_eq!(shown.figure, own(whole_in(&opened, cut.len())));
    let some = plan_within(random, &shown.plan[..sizes.len()]);
    let mut slices = Slices::new(points).and_next(points);
    let mut reached = read(cut, &some, &mut slices).unwrap();
    assert_eq!(reached.figure, own(some));
    for _ in 0..4 {
        let layer = random.below(sizes.len() as u64);
        let seen = preview(cut, &reached.plan, layer, &mut slices);
        let refined = refine(cut, &reached.plan, layer, &mut slices);
        assert_eq!(seen, refined);
        if let Ok(further) = refined {
            assert_eq!(further.figure, own(further.plan));
            reached = further;
        }
    }
    let any = plan_within(random, &opened.planes);
    assert_eq!(figure(cut, &any), Ok(own(any)));
    let limit = own(any);
    let planned = plan_by_limit(cut, limit).unwrap();
    assert!(planned.figure <= limit && planned.figure == own(planned.plan));
    let planned = plan_by_cells(cut, random.below(opened.cells + 2)).unwrap();
    assert_eq!(planned.figure, own(planned.plan));
}

/// None lost, the closed losses, any numbers in between, and old cards.
#[test]
fn figures_of_any_losses() {
    let mut random = Random::new(681);
    let mut cases: Vec<Case> = (0..600).map(|_| Case::small(&mut random)).collect();
    for (rows, cols) in LARGE_SIZES {
        let kind = random.pick(&KINDS);
        cases.push(Case::of_kind(&mut random, kind, rows, cols));
    }
    for case in cases {
        let card = written(&case);
        let opened = open(&card).unwrap();
        let most = most(&opened);
        let lines = [
            vec![0; most.len()],
            any_losses(&mut random, &opened),
            most.clone(),
        ];
        for losses in lines {
            let other = with_losses(&card, &losses);
            check_figures(&mut random, &other, case.count());
        }
        check_figures(&mut random, &card, case.count());
        check_figures(&mut random, &old(&card), case.count());
        // No planes leave as much lost on an old card as on one with the closed losses.
        let none = plan(&[]);
        let closed = with_losses(&card, &most);
        assert_eq!(figure(&closed, &none), figure(&old(&card), &none));
    }
}

/// A whole card's values, written with its settings: the same bytes where its line is the measured one; another line is
/// replaced by it, and an old card gains it. All else stays.
#[test]
fn written_back() {
    let mut random = Random::new(682);
    let mut cases: Vec<Case> = (0..800).map(|_| Case::small(&mut random)).collect();
    for (rows, cols) in LARGE_SIZES {
        for curve in CURVES {
            for kind in [Kind::Smooth, Kind::Quiet] {
                let mut case = Case::of_kind(&mut random, kind, rows, cols);
                case.curve = curve;
                cases.push(case);
            }
        }
    }
    let mut back = 0;
    for case in cases {
        let card = written(&case);
        let losses = any_losses(&mut random, &open(&card).unwrap());
        for other in [card.clone(), old(&card), with_losses(&card, &losses)] {
            let mut slices = Slices::new(case.count());
            show(&other, &mut slices).unwrap();
            let range = -1_048_575..=1_048_575;
            if !slices.values.iter().all(|value| range.contains(value)) {
                continue;
            }
            let samples = slices.values.iter().map(|&value| value as i32).collect();
            let again = written(&Case {
                samples,
                ..case.clone()
            });
            assert_eq!(again, card);
            assert_eq!(old(&again), old(&other));
            back += 1;
        }
    }
    assert!(back > 1000, "{back}");
}
