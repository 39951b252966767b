//! Every slice of every call at other lengths than it should have, and what the boundary alone
//! decides: the lengths of answer and plan, and the curve's number.

use super::both::{check, A, B, Q, V};
use super::calls::{Call, Memory, Slice, SLICES};
use super::common::bench;
use trace_card_tests::boundary::{ANSWER, PLAN};
use trace_card_tests::model::write::OUTPUT_BYTES;

const WRITE: Call = Call::Write {
    rows: 1,
    cols: 5,
    levels: 1,
    curve: 0,
    step: 1,
};

/// Calls that are all accepted in the memory below.
const CALLS: [Call; 10] = [
    WRITE,
    Call::Read,
    Call::Show,
    Call::Roll,
    Call::Compare,
    Call::Refine { layer: 1 },
    Call::Preview { layer: 1 },
    Call::Figure,
    Call::PlanByLimit(9),
    Call::PlanByCells(5),
];

/// The bench card, the finer one, a plan of all its anchors' planes, and slices of the right lengths.
fn memory() -> Memory {
    let mut plan = vec![0; PLAN];
    plan[0] = 5;
    Memory {
        samples: bench::SAMPLES.to_vec(),
        card: bench::card(),
        second: bench::fine_card(),
        plan,
        coefficients: vec![1; 5],
        values: vec![V; 5],
        next: vec![V; 5],
        second_coefficients: vec![Q; 5],
        second_values: vec![V; 5],
        output: vec![B; OUTPUT_BYTES],
        page: vec![B; 150],
        apart: vec![B; 5],
        answer: vec![A; ANSWER],
    }
}

/// What a call returns where one of its slices is so long, and 0 where it does not take it.
fn expected(call: Call, slice: Slice, length: usize) -> u64 {
    let writes = matches!(call, Call::Write { .. });
    let (rolls, compares) = (matches!(call, Call::Roll), matches!(call, Call::Compare));
    let previews = matches!(call, Call::Preview { .. });
    let refines = matches!(call, Call::Refine { .. }) || previews;
    let reads = matches!(call, Call::Read | Call::Show) || refines || rolls || compares;
    let plans = matches!(call, Call::Read | Call::Figure) || refines;
    let wrong = match slice {
        Slice::Samples => writes && length != 5,
        Slice::Coefficients | Slice::Values => (writes || reads) && length != 5,
        Slice::Next => previews && length != 5,
        Slice::SecondCoefficients | Slice::SecondValues | Slice::Apart => compares && length != 5,
        Slice::Output => writes && length < OUTPUT_BYTES,
        Slice::Page if rolls && length < 150 => return 12,
        Slice::Page => false,
        Slice::Plan => plans && length != 13,
        Slice::Answer => length != 24,
        // The header is cut, or bytes follow the last cell.
        Slice::Card if writes => false,
        Slice::Card if length < bench::HEADER_BYTES => return 5,
        Slice::Card if length > bench::CARD_BYTES => return 7,
        Slice::Second if compares && length < bench::FINE_HEADER_BYTES => return 5,
        Slice::Second if compares && length > bench::FINE_CARD_BYTES => return 7,
        Slice::Second => false,
        // Cut behind the header, the card has fewer planes than the plan asks.
        Slice::Card => match call {
            Call::Read if length < bench::HEADER_BYTES + 5 * 32 => return 9,
            _ if refines && length < bench::CARD_BYTES => return 9,
            _ => false,
        },
    };
    if wrong {
        3
    } else {
        0
    }
}

#[test]
fn every_slice_of_every_call() {
    for call in CALLS {
        for slice in SLICES {
            let right = memory().length(slice);
            let near = [right - 1, right, right + 1];
            let others = [63, 64, 255, 257, 32_768, OUTPUT_BYTES - 1, 2 * right];
            for length in (0..40).chain(near).chain(others) {
                let mut other = memory();
                other.resize(slice, length);
                let returned = check(call, &mut other);
                assert_eq!(
                    returned,
                    expected(call, slice, length),
                    "{call:?}, {slice:?} {length} long"
                );
            }
        }
    }
}

/// Two slices wrong, and all of them empty.
#[test]
fn several_slices_at_once() {
    for call in CALLS {
        for first in SLICES {
            for second in SLICES {
                for more in [0, 1] {
                    let mut other = memory();
                    other.resize(first, other.length(first) - 1);
                    other.resize(second, more);
                    check(call, &mut other);
                }
            }
        }
        let returned = check(call, &mut Memory::default());
        assert_eq!(returned, 3, "{call:?}, an answer of no numbers");
        let mut only_answer = Memory {
            answer: vec![A; ANSWER],
            ..Memory::default()
        };
        let returned = check(call, &mut only_answer);
        let number = match call {
            Call::Read | Call::Refine { .. } | Call::Preview { .. } => 3,
            Call::Figure | Call::Write { .. } => 3,
            Call::Show | Call::Roll | Call::Compare => 5,
            Call::PlanByLimit(_) | Call::PlanByCells(_) => 5,
        };
        assert_eq!(returned, number, "{call:?}, no slice but the answer");
    }
}

/// A curve other than 0 and 1 is refusal 2, so it comes after 1 and before 3.
#[test]
fn curves() {
    for curve in [0, 1, 2, 3, 255, 256, 1 << 32, (1 << 32) + 1, u64::MAX] {
        for (rows, points, number) in [(1, 5, 0), (1, 4, 3), (0, 5, 1), (8193, 5, 1)] {
            let call = Call::Write {
                rows,
                cols: 5,
                levels: 1,
                curve,
                step: 1,
            };
            let mut memory = Memory {
                coefficients: vec![Q; points],
                ..memory()
            };
            let returned = check(call, &mut memory);
            let number = if curve > 1 && number != 1 { 2 } else { number };
            assert_eq!(returned, number, "{call:?}");
            assert_eq!(memory.answer[..3], [number, 0, 0]);
        }
    }
}
