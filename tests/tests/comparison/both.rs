//! Each call made by the proved code, in both kinds of room, and by the model; and everything
//! compared.

use super::calls::{differences, proved, Call, Left, Memory};
use super::promised::{planned, promised};
use trace_card_tests::boundary::ANSWER;
use trace_card_tests::lent::ROOMS;
use trace_card_tests::model::roll::page_bytes;
use trace_card_tests::model::write::OUTPUT_BYTES;
use trace_card_tests::model::{self, Compared, Curve, Plan, Planned, Reached, Refusal};
use trace_card_tests::random::cases::Case;

/// Numbers that no call leaves by chance, or bytes that it leaves seldom.
pub const Q: i32 = -123_456_789;
pub const V: i64 = -1_234_567_890_123_456_789;
pub const B: u8 = 0xA7;
pub const A: u64 = 0xDEAD_BEEF_0BAD_F00D;

/// The curve's number at the boundary.
fn curve_number(curve: Curve) -> u64 {
    match curve {
        Curve::Linear => 0,
        Curve::Cubic => 1,
    }
}

/// The proved call leaves what it should, whatever stands around its slices; and a refusal
/// leaves everything but the answer.
fn hold(call: Call, memory: &Memory, expected: &Left) {
    for room in ROOMS {
        let found = proved(call, memory, room);
        assert!(
            found == *expected,
            "{call:?} in {room:?} returned {}, not {}; {:?}",
            found.0,
            expected.0,
            differences(&found.1, &expected.1)
        );
    }
    if expected.0 != 0 {
        let mut kept = memory.clone();
        kept.answer.clone_from(&expected.1.answer);
        assert!(kept == expected.1, "{call:?} refused changes memory");
    }
}

/// Makes the call both ways in this memory, which is then as the call left it. Answers what
/// the call returned.
pub fn check(call: Call, memory: &mut Memory) -> u64 {
    let expected = promised(call, memory);
    hold(call, memory, &expected);
    *memory = expected.1;
    expected.0
}

/// The refusal that an answer tells.
fn refusal_in(answer: &[u64]) -> Result<(), Refusal> {
    match *answer {
        [0, ..] => Ok(()),
        [number, first, second, ..] => Err(Refusal {
            number,
            details: [first, second],
        }),
        _ => unreachable!("an answer has 24 numbers"),
    }
}

/// The plan that an answer tells.
fn plan_in(answer: &[u64]) -> Plan {
    let mut plan = [0; model::MAX_LAYERS];
    plan.copy_from_slice(&answer[5..5 + model::MAX_LAYERS]);
    plan
}

/// Writing, with slices of any length. Answers the card.
pub fn write(case: &Case, lengths: [usize; 2], output: usize) -> Result<Vec<u8>, Refusal> {
    let call = Call::Write {
        rows: case.rows,
        cols: case.cols,
        levels: case.levels,
        curve: curve_number(case.curve),
        step: case.step,
    };
    let mut memory = Memory {
        samples: case.samples.clone(),
        coefficients: vec![Q; lengths[0]],
        values: vec![V; lengths[1]],
        output: vec![B; output],
        answer: vec![A; ANSWER],
        ..Memory::default()
    };
    check(call, &mut memory);
    refusal_in(&memory.answer)?;
    memory.output.truncate(memory.answer[3] as usize);
    Ok(memory.output)
}

/// Writing in slices of the right lengths; the case must be accepted.
pub fn written(case: &Case) -> Vec<u8> {
    write(case, [case.count(); 2], OUTPUT_BYTES).expect("an accepted sheet is written")
}

/// The slices of a reading, as a caller holds them from one call to the next.
#[derive(Clone, Debug, PartialEq, Eq)]
pub struct Slices {
    pub coefficients: Vec<i32>,
    pub values: Vec<i64>,
    /// For a roll alone.
    pub page: Vec<u8>,
    /// For a preview alone.
    pub next: Vec<i64>,
}

impl Slices {
    pub fn of_lengths(coefficients: usize, values: usize) -> Slices {
        Slices {
            coefficients: vec![Q; coefficients],
            values: vec![V; values],
            page: vec![],
            next: vec![],
        }
    }

    pub fn new(points: usize) -> Slices {
        Slices::of_lengths(points, points)
    }

    /// With a page of so many bytes.
    pub fn and_page(self, page: usize) -> Slices {
        Slices {
            page: vec![B; page],
            ..self
        }
    }

    /// With a third slice of this length.
    pub fn and_next(self, next: usize) -> Slices {
        Slices {
            next: vec![V; next],
            ..self
        }
    }

    /// With a page that is just long enough for the points.
    pub fn for_roll(points: usize) -> Slices {
        Slices::new(points).and_page(page_bytes(points))
    }

    pub fn holding(coefficients: &[i32]) -> Slices {
        Slices {
            coefficients: coefficients.to_vec(),
            ..Slices::new(coefficients.len())
        }
    }
}

/// A call that leaves coefficients and values, in these slices, which are then as it left them.
fn reach(call: Call, card: &[u8], plan: &[u64], slices: &mut Slices) -> Result<Reached, Refusal> {
    let mut memory = Memory {
        card: card.to_vec(),
        plan: plan.to_vec(),
        coefficients: std::mem::take(&mut slices.coefficients),
        values: std::mem::take(&mut slices.values),
        page: std::mem::take(&mut slices.page),
        next: std::mem::take(&mut slices.next),
        answer: vec![A; ANSWER],
        ..Memory::default()
    };
    check(call, &mut memory);
    slices.coefficients = memory.coefficients;
    slices.values = memory.values;
    slices.page = memory.page;
    slices.next = memory.next;
    refusal_in(&memory.answer)?;
    Ok(Reached {
        plan: plan_in(&memory.answer),
        figure: memory.answer[4],
    })
}

pub fn read(card: &[u8], plan: &Plan, slices: &mut Slices) -> Result<Reached, Refusal> {
    reach(Call::Read, card, plan, slices)
}

pub fn show(card: &[u8], slices: &mut Slices) -> Result<Reached, Refusal> {
    reach(Call::Show, card, &[], slices)
}

pub fn roll(card: &[u8], slices: &mut Slices) -> Result<Reached, Refusal> {
    reach(Call::Roll, card, &[], slices)
}

pub fn refine(
    card: &[u8],
    plan: &Plan,
    layer: u64,
    slices: &mut Slices,
) -> Result<Reached, Refusal> {
    reach(Call::Refine { layer }, card, plan, slices)
}

pub fn preview(
    card: &[u8],
    plan: &Plan,
    layer: u64,
    slices: &mut Slices,
) -> Result<Reached, Refusal> {
    reach(Call::Preview { layer }, card, plan, slices)
}

/// Compares two cards in these slices, two for each of them and one for the marks, which are then as the
/// call left them.
pub fn compare(
    cards: [&[u8]; 2],
    slices: &mut [Slices; 2],
    marks: &mut Vec<u8>,
) -> Result<Compared, Refusal> {
    let [first, second] = slices;
    let mut memory = Memory {
        card: cards[0].to_vec(),
        second: cards[1].to_vec(),
        coefficients: std::mem::take(&mut first.coefficients),
        values: std::mem::take(&mut first.values),
        second_coefficients: std::mem::take(&mut second.coefficients),
        second_values: std::mem::take(&mut second.values),
        apart: std::mem::take(marks),
        answer: vec![A; ANSWER],
        ..Memory::default()
    };
    check(Call::Compare, &mut memory);
    first.coefficients = memory.coefficients;
    first.values = memory.values;
    second.coefficients = memory.second_coefficients;
    second.values = memory.second_values;
    *marks = memory.apart;
    refusal_in(&memory.answer)?;
    let [apart, row, col] = [3, 4, 5].map(|place| memory.answer[place]);
    Ok(Compared {
        apart,
        first: [row, col],
    })
}

/// The memory of a call that only answers.
fn asking(card: &[u8], plan: &[u64]) -> Memory {
    Memory {
        card: card.to_vec(),
        plan: plan.to_vec(),
        answer: vec![A; ANSWER],
        ..Memory::default()
    }
}

/// The figure of a plan.
pub fn figure(card: &[u8], plan: &Plan) -> Result<u64, Refusal> {
    let mut memory = asking(card, plan);
    check(Call::Figure, &mut memory);
    refusal_in(&memory.answer)?;
    Ok(memory.answer[4])
}

/// A planning call.
fn find_plan(call: Call, card: &[u8]) -> Result<Planned, Refusal> {
    let mut memory = asking(card, &[]);
    check(call, &mut memory);
    refusal_in(&memory.answer)?;
    Ok(Planned {
        plan: plan_in(&memory.answer),
        cells: memory.answer[3],
        figure: memory.answer[4],
    })
}

pub fn plan_by_limit(card: &[u8], limit: u64) -> Result<Planned, Refusal> {
    find_plan(Call::PlanByLimit(limit), card)
}

pub fn plan_by_cells(card: &[u8], cells: u64) -> Result<Planned, Refusal> {
    find_plan(Call::PlanByCells(cells), card)
}

/// A planning call, held against what some method says.
fn hold_plan(call: Call, card: &[u8], result: Result<Planned, Refusal>) {
    let memory = asking(card, &[]);
    let answer = planned(result);
    let left = Memory {
        answer: answer.to_vec(),
        ..memory.clone()
    };
    hold(call, &memory, &(answer[0], left));
}

pub fn hold_limit(card: &[u8], limit: u64, result: Result<Planned, Refusal>) {
    hold_plan(Call::PlanByLimit(limit), card, result);
}

pub fn hold_cells(card: &[u8], cells: u64, result: Result<Planned, Refusal>) {
    hold_plan(Call::PlanByCells(cells), card, result);
}
