//! Write, show, roll, compare, refine, preview and both plannings beside the same calls in Rust (`fast`), in one run: the best
//! of many, in microseconds, and the ratio. It stops where the two give different results. The roll stands beside Rust's own
//! formatting too.
//!
//! `cargo bench --offline`, after `programs/build`.

use std::io::Write;
use std::time::Instant;
use trace_card_tests::boundary::{self, ANSWER, PLAN};
use trace_card_tests::fast;
use trace_card_tests::model::roll::page_bytes;
use trace_card_tests::model::write::OUTPUT_BYTES;
use trace_card_tests::model::{Compared, Curve, Planned, Reached};
use trace_card_tests::random::sheets::{sheet, Kind, KINDS};
use trace_card_tests::random::Random;

const SIZES: [(u64, u64); 5] = [(64, 128), (1, 8192), (8192, 1), (90, 91), (500, 1)];
const ROUNDS: usize = 7;

/// The best time of one call, of many made in a row, in microseconds.
fn best_of(mut call: impl FnMut()) -> f64 {
    let mut best = f64::MAX;
    for _ in 0..40 {
        let start = Instant::now();
        call();
        best = best.min(start.elapsed().as_secs_f64());
    }
    best * 1e6
}

/// Both timed in turn, several times over, so that neither has the quieter machine.
fn compare(name: &str, mut proved: impl FnMut(), mut rust: impl FnMut()) {
    let (mut ours, mut theirs) = (f64::MAX, f64::MAX);
    for _ in 0..ROUNDS {
        ours = ours.min(best_of(&mut proved));
        theirs = theirs.min(best_of(&mut rust));
    }
    println!("  {name:<14} {ours:9.1} {theirs:9.1} {:7.2}", ours / theirs);
}

struct Setting {
    rows: u64,
    cols: u64,
    curve: Curve,
    step: u64,
    samples: Vec<i32>,
}

struct Slices {
    coefficients: Vec<i32>,
    values: Vec<i64>,
    next: Vec<i64>,
    second_coefficients: Vec<i32>,
    second_values: Vec<i64>,
    output: Vec<u8>,
    page: Vec<u8>,
    apart: Vec<u8>,
    answer: [u64; ANSWER],
}

fn slices(points: usize) -> Slices {
    Slices {
        coefficients: vec![0; points],
        values: vec![0; points],
        next: vec![0; points],
        second_coefficients: vec![0; points],
        second_values: vec![0; points],
        output: vec![0; OUTPUT_BYTES],
        page: vec![0; page_bytes(points)],
        apart: vec![0; points],
        answer: [0; ANSWER],
    }
}

fn proved_write(setting: &Setting, s: &mut Slices) {
    let curve = u64::from(setting.curve == Curve::Cubic);
    let refused = boundary::write(
        &setting.samples,
        setting.rows,
        setting.cols,
        6,
        curve,
        setting.step,
        &mut s.coefficients,
        &mut s.values,
        &mut s.output,
        &mut s.answer,
    );
    assert_eq!(refused, 0);
}

fn rust_write(setting: &Setting, s: &mut Slices) {
    let length = fast::write(
        &setting.samples,
        setting.rows,
        setting.cols,
        6,
        setting.curve,
        setting.step,
        &mut s.coefficients,
        &mut s.values,
        &mut s.output,
    );
    s.answer = [0; ANSWER];
    s.answer[3] = length.expect("an accepted sheet");
}

fn proved_compare(first: &[u8], second: &[u8], s: &mut Slices) {
    let refused = boundary::compare(
        first,
        second,
        &mut s.coefficients,
        &mut s.values,
        &mut s.second_coefficients,
        &mut s.second_values,
        &mut s.apart,
        &mut s.answer,
    );
    assert_eq!(refused, 0);
}

fn rust_compare(first: &[u8], second: &[u8], s: &mut Slices) {
    let compared = fast::compare(
        first,
        second,
        &mut s.coefficients,
        &mut s.values,
        &mut s.second_coefficients,
        &mut s.second_values,
        &mut s.apart,
    );
    let Compared { apart, first } = compared.expect("right cards of one size");
    s.answer = [0; ANSWER];
    s.answer[3] = apart;
    s.answer[4..6].copy_from_slice(&first);
}

/// The roll by Rust's own formatting.
fn format_roll(card: &[u8], cols: usize, s: &mut Slices) {
    let shown = fast::show(card, &mut s.coefficients, &mut s.values).expect("a right card");
    let mut page = &mut s.page[..];
    writeln!(page, "{:>24}", shown.figure).expect("room for a line");
    for (row, values) in s.values.chunks_exact(cols).enumerate() {
        for (col, value) in values.iter().enumerate() {
            writeln!(page, "{row:>4}{col:>4}{value:>16}").expect("room for a line");
        }
    }
    reached(&mut s.answer, shown);
}

fn reached(answer: &mut [u64; ANSWER], reached: Reached) {
    *answer = [0; ANSWER];
    answer[4] = reached.figure;
    answer[5..5 + PLAN].copy_from_slice(&reached.plan);
}

fn planned(answer: &mut [u64; ANSWER], planned: Planned) {
    *answer = [0; ANSWER];
    answer[3] = planned.cells;
    answer[4] = planned.figure;
    answer[5..5 + PLAN].copy_from_slice(&planned.plan);
}

/// The same results, or there is nothing to compare.
fn same(ours: &Slices, theirs: &Slices) {
    assert_eq!(ours.answer, theirs.answer);
    assert_eq!(ours.coefficients, theirs.coefficients);
    assert_eq!(ours.values, theirs.values);
    assert_eq!(ours.next, theirs.next);
    assert_eq!(ours.second_coefficients, theirs.second_coefficients);
    assert_eq!(ours.second_values, theirs.second_values);
    assert_eq!(ours.output, theirs.output);
    assert_eq!(ours.page, theirs.page);
    assert_eq!(ours.apart, theirs.apart);
}

/// Writing by itself; hands back the card.
fn run_write(setting: &Setting, name: &str, ours: &mut Slices, theirs: &mut Slices) -> Vec<u8> {
    proved_write(setting, ours);
    rust_write(setting, theirs);
    same(ours, theirs);
    let card = ours.output[..ours.answer[3] as usize].to_vec();
    compare(
        name,
        || proved_write(setting, ours),
        || rust_write(setting, theirs),
    );
    card
}

fn run(setting: &Setting) {
    let points = setting.samples.len();
    let (mut ours, mut theirs) = (slices(points), slices(points));
    let card = run_write(setting, "write", &mut ours, &mut theirs);

    let header = card.len() - 32 * cells_of(&card);
    let half = &card[..header + (card.len() - header) / 2];
    for (name, bytes) in [("show whole", &card[..]), ("show half", half)] {
        let proved = |s: &mut Slices| {
            let refused = boundary::show(bytes, &mut s.coefficients, &mut s.values, &mut s.answer);
            assert_eq!(refused, 0);
        };
        let rust = |s: &mut Slices| {
            let shown =
                fast::show(bytes, &mut s.coefficients, &mut s.values).expect("a right card");
            reached(&mut s.answer, shown);
        };
        proved(&mut ours);
        rust(&mut theirs);
        same(&ours, &theirs);
        compare(name, || proved(&mut ours), || rust(&mut theirs));
    }

    // From the half-read card, the next plane of the last layer that has one.
    let mut plan = [0; PLAN];
    plan.copy_from_slice(&ours.answer[5..5 + PLAN]);
    let start = ours.coefficients.clone();
    let layer = (0..PLAN as u64).rev().find(|&layer| {
        let (mut q, mut v) = (start.clone(), vec![0; points]);
        fast::refine(&card, &plan, layer, &mut q, &mut v).is_ok()
    });
    if let Some(layer) = layer {
        let proved = |s: &mut Slices| {
            s.coefficients.copy_from_slice(&start);
            let (q, v) = (&mut s.coefficients, &mut s.values);
            assert_eq!(
                boundary::refine(&card, &plan, layer, q, v, &mut s.answer),
                0
            );
        };
        let rust = |s: &mut Slices| {
            s.coefficients.copy_from_slice(&start);
            let (q, v) = (&mut s.coefficients, &mut s.values);
            let refined = fast::refine(&card, &plan, layer, q, v).expect("a plane more");
            reached(&mut s.answer, refined);
        };
        proved(&mut ours);
        rust(&mut theirs);
        same(&ours, &theirs);
        compare("refine", || proved(&mut ours), || rust(&mut theirs));

        // The same plane; nothing need be copied, since coefficients and values stay.
        let proved = |s: &mut Slices| {
            let (v, next) = (&s.values, &mut s.next);
            assert_eq!(
                boundary::preview(&card, &plan, layer, &start, v, next, &mut s.answer),
                0
            );
        };
        let rust = |s: &mut Slices| {
            let (v, next) = (&s.values, &mut s.next);
            let previewed =
                fast::preview(&card, &plan, layer, &start, v, next).expect("a plane more");
            reached(&mut s.answer, previewed);
        };
        proved(&mut ours);
        rust(&mut theirs);
        same(&ours, &theirs);
        // What refining left.
        assert_eq!(ours.next, ours.values);
        compare("preview", || proved(&mut ours), || rust(&mut theirs));
    }

    let limit = setting.step + 1000;
    let proved =
        |s: &mut Slices| assert_eq!(boundary::plan_by_limit(&card, limit, &mut s.answer), 0);
    let rust = |s: &mut Slices| {
        planned(
            &mut s.answer,
            fast::plan_by_limit(&card, limit).expect("a plan"),
        )
    };
    proved(&mut ours);
    rust(&mut theirs);
    same(&ours, &theirs);
    compare("plan by limit", || proved(&mut ours), || rust(&mut theirs));

    let cells = cells_of(&card) as u64 / 2;
    let proved =
        |s: &mut Slices| assert_eq!(boundary::plan_by_cells(&card, cells, &mut s.answer), 0);
    let rust = |s: &mut Slices| {
        planned(
            &mut s.answer,
            fast::plan_by_cells(&card, cells).expect("a plan"),
        )
    };
    proved(&mut ours);
    rust(&mut theirs);
    same(&ours, &theirs);
    compare("plan by cells", || proved(&mut ours), || rust(&mut theirs));

    let proved = |s: &mut Slices| {
        let (q, v, page) = (&mut s.coefficients, &mut s.values, &mut s.page);
        assert_eq!(boundary::roll(&card, q, v, page, &mut s.answer), 0);
    };
    let rust = |s: &mut Slices| {
        let (q, v, page) = (&mut s.coefficients, &mut s.values, &mut s.page);
        let rolled = fast::roll(&card, q, v, page).expect("a right card");
        reached(&mut s.answer, rolled);
    };
    let formatted = |s: &mut Slices| format_roll(&card, setting.cols as usize, s);
    proved(&mut ours);
    rust(&mut theirs);
    same(&ours, &theirs);
    compare("roll", || proved(&mut ours), || rust(&mut theirs));
    theirs.page.fill(0);
    formatted(&mut theirs);
    same(&ours, &theirs);
    compare(
        "roll, writeln!",
        || proved(&mut ours),
        || formatted(&mut theirs),
    );

    // Beside a card of the same sheet, by the other curve and with another step.
    let other = Setting {
        curve: match setting.curve {
            Curve::Linear => Curve::Cubic,
            Curve::Cubic => Curve::Linear,
        },
        step: setting.step + 5,
        samples: setting.samples.clone(),
        ..*setting
    };
    proved_write(&other, &mut ours);
    rust_write(&other, &mut theirs);
    same(&ours, &theirs);
    let second = ours.output[..ours.answer[3] as usize].to_vec();
    // All points agree, so marks that were never made would pass for made ones.
    ours.apart.fill(2);
    proved_compare(&card, &second, &mut ours);
    rust_compare(&card, &second, &mut theirs);
    same(&ours, &theirs);
    compare(
        "compare",
        || proved_compare(&card, &second, &mut ours),
        || rust_compare(&card, &second, &mut theirs),
    );
}

/// The cells that a card's header names.
fn cells_of(card: &[u8]) -> usize {
    trace_card_tests::model::open(card)
        .expect("a right card")
        .cells as usize
}

fn main() {
    // `cargo bench` hands on its own words, and one of ours may name a size such as 64x128.
    let only = std::env::args().skip(1).find(|word| word.contains('x'));
    let mut random = Random::new(571);
    println!("microseconds, best of many: proved, Rust, ratio");
    for (rows, cols) in SIZES {
        if only
            .as_ref()
            .is_some_and(|only| *only != format!("{rows}x{cols}"))
        {
            continue;
        }
        for curve in [Curve::Linear, Curve::Cubic] {
            for step in [0, 10] {
                for (kind, word) in [(Kind::Smooth, "smooth"), (Kind::Noise, "rough")] {
                    println!("{rows} by {cols}, {curve:?}, step {step}, {word}");
                    let samples = sheet(&mut random, kind, rows, cols);
                    run(&Setting {
                        rows,
                        cols,
                        curve,
                        step,
                        samples,
                    });
                }
            }
        }
        // How long measuring takes goes by the digits that there are, so every kind of sheet is written.
        println!("{rows} by {cols}, Cubic, step 0, written");
        for kind in KINDS {
            let samples = sheet(&mut random, kind, rows, cols);
            let (mut ours, mut theirs) = (slices(samples.len()), slices(samples.len()));
            let setting = Setting {
                rows,
                cols,
                curve: Curve::Cubic,
                step: 0,
                samples,
            };
            run_write(&setting, &format!("{kind:?}"), &mut ours, &mut theirs);
        }
    }
}
