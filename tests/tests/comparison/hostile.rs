//! Bytes that no writer wrote, through every call: random ones, and ones put together like
//! cards; with them any sheet, plan and numbers, and slices of any length.

use super::both::{check, A, B, Q, V};
use super::calls::{Call, Memory, SLICES};
use super::common::{card_of, header_lines};
use trace_card_tests::boundary::ANSWER;
use trace_card_tests::model::planes::{cells_in, whole_planes};
use trace_card_tests::model::roll::page_bytes;
use trace_card_tests::model::sheet::Shape;
use trace_card_tests::model::write::OUTPUT_BYTES;
use trace_card_tests::model::{open, Plan};
use trace_card_tests::random::plans::plan_about;
use trace_card_tests::random::Random;

/// What may or may not stand behind the key of a line.
fn any_value(random: &mut Random) -> String {
    match random.below(10) {
        0 => random.draw().to_string(),
        1 => format!("0{}", random.below(10)),
        2 => "linear".to_string(),
        3 => "cubic".to_string(),
        4 => {
            let (counts, end) = random.pick(&[(15, 25), (30, 5), (400, 9)]);
            let counts: Vec<String> = (0..random.below(counts))
                .map(|_| random.below(end).to_string())
                .collect();
            counts.join(",")
        }
        5 => String::new(),
        6 => "7".repeat(random.below(3000) as usize),
        _ => random.below(9).to_string(),
    }
}

/// A size of a card. Now and then a plane of such a card has several cells.
fn any_size(random: &mut Random) -> (u64, u64) {
    let end = if random.once_in(40) { 40 } else { 12 };
    (1 + random.below(end), 1 + random.below(end))
}

/// A line of losses of so many planes in each layer, rising or not. Now and then a number is one too large, or one is
/// missing or too many.
fn losses_like(random: &mut Random, planes: &[u64]) -> String {
    let mut numbers: Vec<u64> = Vec::new();
    for &count in planes {
        numbers.extend((0..count).map(|place| random.below((1 << place) + 1)));
    }
    if random.once_in(8) && !numbers.is_empty() {
        let at = random.below(numbers.len() as u64) as usize;
        match random.below(4) {
            0 => numbers.insert(at, 0),
            1 => drop(numbers.remove(at)),
            2 => numbers[at] += 1,
            _ => numbers[at] = random.pick(&HUGE),
        }
    }
    let numbers: Vec<String> = numbers.iter().map(u64::to_string).collect();
    format!("loss={}", numbers.join(","))
}

/// A header of this size that is right but for a line now and then, and any bytes behind it, about as many
/// as its cells have.
fn card_like(random: &mut Random, (rows, cols): (u64, u64)) -> Vec<u8> {
    let shape = Shape {
        rows,
        cols,
        levels: random.below(4),
    };
    let points = shape.layer_counts();
    let planes: Vec<u64> = points
        .iter()
        .map(|&count| if count == 0 { 0 } else { random.below(4) })
        .collect();
    let cells = cells_in(&planes, &points);
    let mut lines = header_lines(
        (shape.rows, shape.cols),
        shape.levels,
        random.pick(&["linear", "cubic"]),
        random.below(65_536),
        &planes,
        cells,
    )
    .to_vec();
    // An old card, or one with any line of losses that is about right.
    if !random.once_in(3) {
        lines.insert(6, losses_like(random, &planes));
    }
    if random.once_in(3) {
        let line = random.below(lines.len() as u64) as usize;
        let key = lines[line].split('=').next().unwrap();
        lines[line] = format!("{key}={}", any_value(random));
    }
    let mut bytes = card_of(&lines, &[]);
    if random.once_in(8) {
        bytes.truncate(random.length(0, bytes.len()));
        return bytes;
    }
    let full = 32 * cells;
    let behind = if random.once_in(2) {
        full
    } else {
        random.below(full + 3)
    };
    // Mostly zeros, so that spare bits are not all set and some planes are fine.
    bytes.extend((0..behind).map(|place| match place % 32 {
        0 => 1 + random.below(3) as u8,
        _ if random.once_in(400) => random.draw() as u8,
        _ => 0,
    }));
    bytes
}

/// Numbers past all that a call expects; some of them come back into its range where they are
/// counted up, multiplied by 8 or 32, or cut to 32 bits.
const HUGE: [u64; 9] = [
    24,
    65_536,
    1 << 31,
    1 << 32,
    (1 << 32) + 1,
    1 << 59,
    1 << 61,
    1 << 63,
    u64::MAX,
];

/// A number, mostly from 0 to `end` - 1.
fn any_number(random: &mut Random, end: u64) -> u64 {
    match random.below(10) {
        0 => random.pick(&HUGE),
        1 => random.draw(),
        _ => random.below(end),
    }
}

/// A plan of about these planes, or any numbers.
fn any_plan(random: &mut Random, whole: &[u64]) -> Plan {
    let mut plan = plan_about(random, whole);
    if random.once_in(3) {
        for planes in &mut plan {
            if random.once_in(8) {
                *planes = any_number(random, 24);
            }
        }
    }
    plan
}

/// All calls, with any numbers; a sheet written has mostly this size.
fn all_calls(random: &mut Random, (rows, cols): (u64, u64)) -> [Call; 10] {
    let mut size = |right| match random.below(8) {
        0 => any_number(random, 10),
        _ => right,
    };
    let (rows, cols) = (size(rows), size(cols));
    [
        Call::Write {
            rows,
            cols,
            levels: any_number(random, 7),
            curve: any_number(random, 2),
            step: any_number(random, 65_536),
        },
        Call::Read,
        Call::Show,
        Call::Roll,
        Call::Compare,
        Call::Refine {
            layer: any_number(random, 4),
        },
        Call::Preview {
            layer: any_number(random, 4),
        },
        Call::Figure,
        Call::PlanByLimit(any_number(random, 100_000)),
        Call::PlanByCells(any_number(random, 20)),
    ]
}

/// The cards of a call, of which only a comparison takes the second, and the points of their sheets.
struct Given<'a> {
    cards: [&'a [u8]; 2],
    points: [usize; 2],
}

/// Memory for these sheets; now and then some slices have other lengths, or numbers that no call takes.
fn any_memory(random: &mut Random, call: Call, given: &Given, plan: &Plan) -> Memory {
    let odd = random.once_in(6);
    let writes = matches!(call, Call::Write { .. });
    let rolls = matches!(call, Call::Roll);
    let [points, second_points] = given.points;
    let mut memory = Memory {
        samples: (0..points)
            .map(|_| match random.below(40) {
                0 if odd => random.draw() as i32,
                _ => random.between(-1_048_575, 1_048_575) as i32,
            })
            .collect(),
        card: given.cards[0].to_vec(),
        second: given.cards[1].to_vec(),
        plan: plan.to_vec(),
        coefficients: (0..points)
            .map(|_| match random.below(40) {
                0 if odd => random.draw() as i32,
                _ => random.between(-2_796_202, 5_592_405) as i32,
            })
            .collect(),
        values: (0..points).map(|_| random.draw() as i64).collect(),
        next: vec![V; points],
        second_coefficients: vec![Q; second_points],
        second_values: vec![V; second_points],
        output: vec![B; if writes { OUTPUT_BYTES } else { 0 }],
        page: vec![B; if rolls { page_bytes(points) } else { 0 }],
        apart: vec![B; points],
        answer: vec![A; ANSWER],
    };
    if random.once_in(6) {
        for _ in 0..1 + random.below(3) {
            let slice = random.pick(&SLICES);
            let right = memory.length(slice) as u64;
            let length = match random.below(4) {
                0 => 0,
                1 => right.saturating_sub(1),
                2 => right + 1,
                _ => random.below(2 * right + 1),
            };
            memory.resize(slice, length as usize);
        }
    }
    memory
}

/// How often each call returned each number.
type Met = [[u64; 14]; 10];

/// Makes all calls on these bytes, the second ones for a comparison, with slices for the sheets that they open
/// to, or for any.
fn attack(random: &mut Random, cards: [&[u8]; 2], met: &mut Met) {
    let opened = cards.map(open);
    let sizes = opened.each_ref().map(|opened| match opened {
        Ok(opened) => (opened.rows, opened.cols),
        Err(_) => (1 + random.below(9), 1 + random.below(9)),
    });
    let whole = match &opened[0] {
        Ok(opened) => whole_planes(opened, cards[0]),
        Err(_) => vec![],
    };
    let points = sizes.map(|(rows, cols)| (rows * cols) as usize);
    for (call, met) in all_calls(random, sizes[0]).into_iter().zip(met) {
        let plan = any_plan(random, &whole);
        let given = Given { cards, points };
        let mut memory = any_memory(random, call, &given, &plan);
        met[check(call, &mut memory) as usize] += 1;
    }
}

/// The numbers that each of these calls may return: its own refusals, those of opening a card,
/// and 3 for an answer or a plan of another length.
const RETURNED: [&[usize]; 10] = [
    &[0, 1, 2, 3, 4],
    &[0, 3, 5, 6, 7, 8, 9],
    &[0, 3, 5, 6, 7, 8],
    &[0, 3, 5, 6, 7, 8, 12],
    &[0, 3, 5, 6, 7, 8, 13],
    &[0, 3, 5, 6, 7, 8, 9, 11],
    &[0, 3, 5, 6, 7, 8, 9, 11],
    &[0, 3, 5, 6, 7, 9],
    &[0, 3, 5, 6, 7, 10],
    &[0, 3, 5, 6, 7],
];

#[test]
fn random_bytes() {
    let mut random = Random::new(551);
    let mut met: Met = [[0; 14]; 10];
    for _ in 0..10_000 {
        let [first, second] = [(); 2].map(|()| -> Vec<u8> {
            let length = random.below(400);
            (0..length).map(|_| random.draw() as u8).collect()
        });
        attack(&mut random, [&first, &second], &mut met);
    }
    // Such bytes are cut in line 1 or have a wrong one.
    for met in &met[1..] {
        assert!([3, 5, 6].iter().all(|&number| met[number] > 100));
        assert_eq!(met[3] + met[5] + met[6], 10_000);
    }
}

/// Every call returns every number that it may, and no other.
#[test]
fn bytes_like_cards() {
    let mut random = Random::new(552);
    let mut met: Met = [[0; 14]; 10];
    for _ in 0..25_000 {
        let size = any_size(&mut random);
        let first = card_like(&mut random, size);
        let second = match random.below(4) {
            0 => any_size(&mut random),
            // As many points, but for a square.
            1 => (size.1, size.0),
            _ => size,
        };
        let second = card_like(&mut random, second);
        attack(&mut random, [&first, &second], &mut met);
    }
    for (met, returned) in met.iter().zip(RETURNED) {
        for (number, &times) in met.iter().enumerate() {
            if returned.contains(&number) {
                assert!(times > 100, "{number} in {met:?}");
            } else {
                assert_eq!(times, 0, "{number} in {met:?}");
            }
        }
    }
}
