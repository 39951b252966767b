//! What include/trace_card.h promises of each call, by the model.

use super::calls::{Call, Left, Memory};
use trace_card_tests::boundary::{ANSWER, PLAN};
use trace_card_tests::model::{self, Compared, Curve, Plan, Planned, Reached, Refusal};

/// Numbers 3 and on of an answer: the length or the cells, the figure and the plan.
fn answer_with(size: u64, figure: u64, plan: &Plan) -> [u64; ANSWER] {
    let mut answer = [0; ANSWER];
    answer[3] = size;
    answer[4] = figure;
    answer[5..5 + PLAN].copy_from_slice(plan);
    answer
}

fn answer_of(refusal: Refusal) -> [u64; ANSWER] {
    let mut answer = [0; ANSWER];
    answer[0] = refusal.number;
    answer[1..3].copy_from_slice(&refusal.details);
    answer
}

/// The answer that tells what a call of the model says.
fn told<T>(result: Result<T, Refusal>, accepted: impl FnOnce(T) -> [u64; ANSWER]) -> [u64; ANSWER] {
    result.map_or_else(answer_of, accepted)
}

fn reached(result: Result<Reached, Refusal>) -> [u64; ANSWER] {
    told(result, |Reached { plan, figure }| {
        answer_with(0, figure, &plan)
    })
}

pub fn planned(result: Result<Planned, Refusal>) -> [u64; ANSWER] {
    told(result, |planned| {
        answer_with(planned.cells, planned.figure, &planned.plan)
    })
}

fn compared(result: Result<Compared, Refusal>) -> [u64; ANSWER] {
    told(result, |compared| {
        let mut answer = [0; ANSWER];
        answer[3] = compared.apart;
        answer[4..6].copy_from_slice(&compared.first);
        answer
    })
}

/// What include/trace_card.h promises of the call.
pub fn promised(call: Call, memory: &Memory) -> Left {
    let mut left = memory.clone();
    // The lengths of answer and plan come before all else, and nothing is written.
    if memory.answer.len() != ANSWER {
        return (3, left);
    }
    let plan = Plan::try_from(&memory.plan[..]);
    let (coefficients, values) = (&mut left.coefficients, &mut left.values);
    let card = &memory.card;
    let answer = match (call, plan) {
        (
            Call::Write {
                rows,
                cols,
                levels,
                curve,
                step,
            },
            _,
        ) => {
            // Another curve is refused as levels above 6 are.
            let (curve, levels) = match curve {
                0 => (Curve::Linear, levels),
                1 => (Curve::Cubic, levels),
                _ => (Curve::Linear, u64::MAX),
            };
            let written = model::write(
                &memory.samples,
                rows,
                cols,
                levels,
                curve,
                step,
                coefficients,
                values,
                &mut left.output,
            );
            told(written, |length| answer_with(length, 0, &[0; PLAN]))
        }
        (Call::Show, _) => reached(model::show(card, coefficients, values)),
        (Call::Roll, _) => {
            let page = &mut left.page;
            reached(model::roll(card, coefficients, values, page))
        }
        (Call::Compare, _) => compared(model::compare(
            card,
            &memory.second,
            coefficients,
            values,
            &mut left.second_coefficients,
            &mut left.second_values,
            &mut left.apart,
        )),
        (Call::PlanByLimit(limit), _) => planned(model::plan_by_limit(card, limit)),
        (Call::PlanByCells(cells), _) => planned(model::plan_by_cells(card, cells)),
        (_, Err(_)) => return (3, left),
        (Call::Read, Ok(plan)) => reached(model::read(card, &plan, coefficients, values)),
        (Call::Refine { layer }, Ok(plan)) => {
            reached(model::refine(card, &plan, layer, coefficients, values))
        }
        (Call::Preview { layer }, Ok(plan)) => {
            let next = &mut left.next;
            let previewed = model::preview(card, &plan, layer, coefficients, values, next);
            reached(previewed)
        }
        (Call::Figure, Ok(plan)) => told(model::figure(card, &plan), |figure| {
            answer_with(0, figure, &plan)
        }),
    };
    left.answer = answer.to_vec();
    (answer[0], left)
}
