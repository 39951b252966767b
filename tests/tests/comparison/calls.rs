//! A call of the boundary and the memory lent to it, and what the proved code leaves there.

use std::fmt::Debug;
use trace_card_tests::boundary;
use trace_card_tests::lent::{Lent, Room};

/// A function of the boundary, with the numbers given to it.
#[derive(Clone, Copy, Debug, PartialEq, Eq)]
pub enum Call {
    Write {
        rows: u64,
        cols: u64,
        levels: u64,
        curve: u64,
        step: u64,
    },
    Read,
    Show,
    Roll,
    Compare,
    Refine {
        layer: u64,
    },
    Preview {
        layer: u64,
    },
    Figure,
    PlanByLimit(u64),
    PlanByCells(u64),
}

/// Every slice that some function takes; one that a function does not take is not given to it. Of the
/// two cards of a comparison the first stands where others have their only one.
#[derive(Clone, Debug, Default, PartialEq, Eq)]
pub struct Memory {
    // Only read.
    pub samples: Vec<i32>,
    pub card: Vec<u8>,
    pub second: Vec<u8>,
    pub plan: Vec<u64>,
    // Written to, except that a preview only reads coefficients and values.
    pub coefficients: Vec<i32>,
    pub values: Vec<i64>,
    pub next: Vec<i64>,
    pub second_coefficients: Vec<i32>,
    pub second_values: Vec<i64>,
    pub output: Vec<u8>,
    pub page: Vec<u8>,
    pub apart: Vec<u8>,
    pub answer: Vec<u64>,
}

/// The name of a slice.
#[derive(Clone, Copy, Debug, PartialEq, Eq)]
pub enum Slice {
    Samples,
    Card,
    Second,
    Plan,
    Coefficients,
    Values,
    Next,
    SecondCoefficients,
    SecondValues,
    Output,
    Page,
    Apart,
    Answer,
}

pub const SLICES: [Slice; 13] = [
    Slice::Samples,
    Slice::Card,
    Slice::Second,
    Slice::Plan,
    Slice::Coefficients,
    Slice::Values,
    Slice::Next,
    Slice::SecondCoefficients,
    Slice::SecondValues,
    Slice::Output,
    Slice::Page,
    Slice::Apart,
    Slice::Answer,
];

impl Memory {
    pub fn length(&self, slice: Slice) -> usize {
        match slice {
            Slice::Samples => self.samples.len(),
            Slice::Card => self.card.len(),
            Slice::Second => self.second.len(),
            Slice::Plan => self.plan.len(),
            Slice::Coefficients => self.coefficients.len(),
            Slice::Values => self.values.len(),
            Slice::Next => self.next.len(),
            Slice::SecondCoefficients => self.second_coefficients.len(),
            Slice::SecondValues => self.second_values.len(),
            Slice::Output => self.output.len(),
            Slice::Page => self.page.len(),
            Slice::Apart => self.apart.len(),
            Slice::Answer => self.answer.len(),
        }
    }

    /// Gives a slice another length, with zeros where it is longer.
    pub fn resize(&mut self, slice: Slice, length: usize) {
        match slice {
            Slice::Samples => self.samples.resize(length, 0),
            Slice::Card => self.card.resize(length, 0),
            Slice::Second => self.second.resize(length, 0),
            Slice::Plan => self.plan.resize(length, 0),
            Slice::Coefficients => self.coefficients.resize(length, 0),
            Slice::Values => self.values.resize(length, 0),
            Slice::Next => self.next.resize(length, 0),
            Slice::SecondCoefficients => self.second_coefficients.resize(length, 0),
            Slice::SecondValues => self.second_values.resize(length, 0),
            Slice::Output => self.output.resize(length, 0),
            Slice::Page => self.page.resize(length, 0),
            Slice::Apart => self.apart.resize(length, 0),
            Slice::Answer => self.answer.resize(length, 0),
        }
    }
}

/// What a call returned, and all memory after it.
pub type Left = (u64, Memory);

/// Makes the call, each slice in a room of its own.
pub fn proved(call: Call, memory: &Memory, room: Room) -> Left {
    let samples = Lent::new(&memory.samples, room);
    let card = Lent::new(&memory.card, room);
    let second = Lent::new(&memory.second, room);
    let plan = Lent::new(&memory.plan, room);
    let mut coefficients = Lent::new(&memory.coefficients, room);
    let mut values = Lent::new(&memory.values, room);
    let mut next = Lent::new(&memory.next, room);
    let mut second_coefficients = Lent::new(&memory.second_coefficients, room);
    let mut second_values = Lent::new(&memory.second_values, room);
    let mut output = Lent::new(&memory.output, room);
    let mut page = Lent::new(&memory.page, room);
    let mut apart = Lent::new(&memory.apart, room);
    let mut answer = Lent::new(&memory.answer, room);
    let returned = {
        let (samples, card, plan) = (samples.get(), card.get(), plan.get());
        let (coefficients, values) = (coefficients.lend(), values.lend());
        let (output, page, answer) = (output.lend(), page.lend(), answer.lend());
        match call {
            Call::Write {
                rows,
                cols,
                levels,
                curve,
                step,
            } => boundary::write(
                samples,
                rows,
                cols,
                levels,
                curve,
                step,
                coefficients,
                values,
                output,
                answer,
            ),
            Call::Read => boundary::read(card, plan, coefficients, values, answer),
            Call::Show => boundary::show(card, coefficients, values, answer),
            Call::Roll => boundary::roll(card, coefficients, values, page, answer),
            Call::Compare => boundary::compare(
                card,
                second.get(),
                coefficients,
                values,
                second_coefficients.lend(),
                second_values.lend(),
                apart.lend(),
                answer,
            ),
            Call::Refine { layer } => {
                boundary::refine(card, plan, layer, coefficients, values, answer)
            }
            Call::Preview { layer } => {
                let next = next.lend();
                boundary::preview(card, plan, layer, coefficients, values, next, answer)
            }
            Call::Figure => boundary::figure(card, plan, answer),
            Call::PlanByLimit(limit) => boundary::plan_by_limit(card, limit, answer),
            Call::PlanByCells(cells) => boundary::plan_by_cells(card, cells, answer),
        }
    };
    let left = Memory {
        samples: samples.take_back(),
        card: card.take_back(),
        second: second.take_back(),
        plan: plan.take_back(),
        coefficients: coefficients.take_back(),
        values: values.take_back(),
        next: next.take_back(),
        second_coefficients: second_coefficients.take_back(),
        second_values: second_values.take_back(),
        output: output.take_back(),
        page: page.take_back(),
        apart: apart.take_back(),
        answer: answer.take_back(),
    };
    (returned, left)
}

/// The first number of a slice that is not as it should be.
fn first_wrong<T: Debug + PartialEq>(name: &str, found: &[T], expected: &[T]) -> Option<String> {
    let place = (0..expected.len()).find(|&place| found[place] != expected[place])?;
    let (found, expected) = (&found[place], &expected[place]);
    Some(format!("{name}[{place}] is {found:?}, not {expected:?}"))
}

/// Where two memories differ.
pub fn differences(found: &Memory, expected: &Memory) -> Vec<String> {
    let wrong = [
        first_wrong("samples", &found.samples, &expected.samples),
        first_wrong("card", &found.card, &expected.card),
        first_wrong("second", &found.second, &expected.second),
        first_wrong("plan", &found.plan, &expected.plan),
        first_wrong("coefficients", &found.coefficients, &expected.coefficients),
        first_wrong("values", &found.values, &expected.values),
        first_wrong("next", &found.next, &expected.next),
        first_wrong(
            "second_coefficients",
            &found.second_coefficients,
            &expected.second_coefficients,
        ),
        first_wrong(
            "second_values",
            &found.second_values,
            &expected.second_values,
        ),
        first_wrong("output", &found.output, &expected.output),
        first_wrong("page", &found.page, &expected.page),
        first_wrong("apart", &found.apart, &expected.apart),
        first_wrong("answer", &found.answer, &expected.answer),
    ];
    wrong.into_iter().flatten().collect()
}
