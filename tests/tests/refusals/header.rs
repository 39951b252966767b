//! Opening's refusals: 5, 6 with its line, and 7.

use super::all_refuse;
use super::common::{bench, card_of, header_lines, losses, refusal};
use trace_card_tests::model::write::OUTPUT_BYTES;
use trace_card_tests::model::{open, Curve};
use trace_card_tests::random::cases::Case;
use trace_card_tests::random::losses::old;
use trace_card_tests::random::Random;

#[test]
fn a_cut_in_the_header_gives_5() {
    let mut random = Random::new(301);
    let mut cards = vec![bench::card(), bench::written_card()];
    for _ in 0..10 {
        let card = Case::small(&mut random).write().card;
        cards.extend([old(&card), card]);
    }
    for card in cards {
        let header = open(&card).unwrap().header_length;
        for length in 0..header {
            all_refuse(&card[..length], refusal(5, [0, 0]));
        }
        assert!(open(&card[..header]).is_ok());
    }
}

#[test]
fn a_line_without_its_end_gives_5_before_6() {
    // The line is wrong as well, but its byte 10 is looked for first. Line 7 is one of losses or of cells.
    for number in 1..=8 {
        let lines = &bench::written_lines()[..number - 1];
        let wrong: &[&[u8]] = match number {
            7 => &[b"wrong", b"loss=", b"loss=wrong", b"cells=wrong", b"loss"],
            _ => &[b"wrong"],
        };
        for wrong in wrong {
            check_wrong_line(lines, wrong);
        }
    }
    all_refuse(b"", refusal(5, [0, 0]));
    all_refuse(&[b'1'; 100_000], refusal(5, [0, 0]));
    all_refuse(b"\n", refusal(6, [1, 0]));
}

/// A wrong line behind right ones, cut and with its end.
fn check_wrong_line(lines: &[&[u8]], wrong: &[u8]) {
    let number = lines.len() as u64 + 1;
    let mut card = card_of(lines, &[]);
    card.extend(wrong);
    all_refuse(&card, refusal(5, [0, 0]));
    // An earlier wrong line comes before a later cut, and its end makes it wrong.
    card.push(10);
    all_refuse(&card, refusal(6, [number, 0]));
    card.extend(b"rows=");
    all_refuse(&card, refusal(6, [number, 0]));
}

/// Wrong ways to write the number that a line holds.
fn wrong_numbers(key: &str, right: &str) -> Vec<Vec<u8>> {
    let two_to_the_64th: u128 = 1 << 64;
    let wrapped = two_to_the_64th + right.parse::<u128>().unwrap();
    let wrapped_32 = (1_u128 << 32) + right.parse::<u128>().unwrap();
    let mut lines: Vec<Vec<u8>> = [
        format!("{key}="),
        key.to_string(),
        String::new(),
        format!("{key}=0{right}"),
        format!("{key}=00000000000000000000000000000000000000000{right}"),
        format!("{key}=00"),
        format!("{key}=+{right}"),
        format!("{key}=-{right}"),
        format!("{key}=-0"),
        format!("{key}= {right}"),
        format!("{key}={right} "),
        format!("{key} ={right}"),
        format!(" {key}={right}"),
        format!("{key}={right}\r"),
        format!("{key}={right}\0"),
        format!("{key}={right},"),
        format!("{key}={right}.0"),
        format!("{key}={right}_"),
        format!("{key}={right}e0"),
        format!("{key}=0x{right}"),
        format!("{key}=={right}"),
        format!("{key}:{right}"),
        format!("{key}{right}"),
        format!("{}={right}", key.to_uppercase()),
        format!("x{key}={right}"),
        format!("{key}x={right}"),
        format!("{key}={right}x"),
        format!("{key}=a"),
        format!("{key}=/"),
        format!("{key}=:"),
        format!("{key}={wrapped}"),
        format!("{key}={wrapped_32}"),
        format!("{key}={}", u64::MAX),
        format!("{key}={}", u128::MAX),
        format!("{key}={}", "9".repeat(40)),
        format!("{key}={}", "1".repeat(3000)),
        // Digits of another script.
        format!("{key}=\u{661}"),
    ]
    .map(String::into_bytes)
    .to_vec();
    lines.push([key.as_bytes(), b"=\xFF"].concat());
    lines.push([key.as_bytes(), b"=", right.as_bytes(), b"\xC3"].concat());
    lines
}

#[test]
fn wrong_numbers_give_6_with_their_line() {
    let numbers = [
        (1, "rows", "1", ["0", "8193"]),
        (2, "cols", "5", ["0", "8193"]),
        (3, "levels", "1", ["7", "10"]),
        (5, "step", "1", ["65536", "70000"]),
        (7, "cells", "6", ["5", "7"]),
    ];
    for (line, key, right, past) in numbers {
        let as_it_was = bench::with_line(line, format!("{key}={right}").as_bytes());
        assert!(open(&as_it_was).is_ok());
        let mut wrong = wrong_numbers(key, right);
        wrong.extend(past.map(|number| format!("{key}={number}").into_bytes()));
        for text in wrong {
            all_refuse(&bench::with_line(line, &text), refusal(6, [line as u64, 0]));
            // Behind a line of losses the cells stand one further down.
            let line = if line == 7 { 8 } else { line };
            let card = bench::written_with_line(line, &text);
            all_refuse(&card, refusal(6, [line as u64, 0]));
        }
    }
}

#[test]
fn sizes_at_their_ends() {
    let header = |rows: u64, cols: u64| {
        let lines = header_lines((rows, cols), 0, "cubic", 65_535, &[0], 0);
        card_of(&lines, &[])
    };
    for (rows, cols) in [(1, 1), (1, 8192), (8192, 1), (64, 128), (90, 91)] {
        let opened = open(&header(rows, cols)).unwrap();
        assert_eq!((opened.rows, opened.cols), (rows, cols));
    }
    for (rows, cols) in [(2, 8192), (8192, 2), (8192, 8192), (91, 91), (3, 2731)] {
        all_refuse(&header(rows, cols), refusal(6, [2, 0]));
    }
    // Each size has its own line, and the first wrong line is given.
    for (rows, cols) in [(0, 0), (0, 8193), (8193, 0), (8193, 8193)] {
        all_refuse(&header(rows, cols), refusal(6, [1, 0]));
    }
}

#[test]
fn wrong_curves_give_6() {
    for text in [
        "curve=",
        "curve",
        "",
        "curve=Linear",
        "curve=LINEAR",
        "curve=linear ",
        "curve= linear",
        "curve=linea",
        "curve=linearr",
        "curve=linear\r",
        "curve=cubic,",
        "curve=cubics",
        "curve=0",
        "curve=linear,cubic",
        "Curve=cubic",
        "linear",
    ] {
        all_refuse(&bench::with_line(4, text.as_bytes()), refusal(6, [4, 0]));
    }
    let cubic = open(&bench::with_line(4, b"curve=cubic")).unwrap();
    assert_eq!(cubic.curve, Curve::Cubic);
}

#[test]
fn wrong_counts_give_6() {
    for text in [
        // A wrong number of counts.
        "planes=",
        "planes",
        "",
        "planes=5",
        "planes=5,1",
        "planes=5,1,0,0",
        "planes=5,1,0,0,0",
        "planes=5,1,",
        "planes=5,1,0,",
        "planes=,5,1,0",
        "planes=,1,0",
        "planes=5,,0",
        "planes=,,",
        // Counts over 23, of any length.
        "planes=24,1,0",
        "planes=5,24,0",
        "planes=5,1,24",
        "planes=261,1,0",
        "planes=18446744073709551621,1,0",
        "planes=5,1,9999999999999999999999999999999999999999",
        // A count above 0 for an empty layer: one row has no layer down.
        "planes=5,1,1",
        "planes=5,0,1",
        // Numbers wrongly written.
        "planes=05,1,0",
        "planes=5,01,0",
        "planes=5,1,00",
        "planes=+5,1,0",
        "planes=5,1,-0",
        "planes=5,1,0 ",
        "planes=5, 1,0",
        "planes= 5,1,0",
        "planes=5;1;0",
        "planes=5 1 0",
        "planes=5,1,0\r",
        "planes=5,1,x",
        "Planes=5,1,0",
        "planes==5,1,0",
    ] {
        all_refuse(&bench::with_line(6, text.as_bytes()), refusal(6, [6, 0]));
    }
    // A wrong count of cells for other planes belongs to line 7, as the planes are right.
    for text in ["planes=4,1,0", "planes=5,2,0", "planes=23,23,0"] {
        all_refuse(&bench::with_line(6, text.as_bytes()), refusal(6, [7, 0]));
    }
}

#[test]
fn wrong_losses_give_6_at_line_7() {
    for text in losses::WRONG_LINES {
        let text = text.as_bytes();
        all_refuse(&bench::written_with_line(7, text), refusal(6, [7, 0]));
        // Wherever the card ends behind that line.
        for behind in [0, 1, 6, 7] {
            let lines = &bench::LINES[..6];
            let mut card = card_of(&[lines, &[text]].concat(), &[]);
            card.extend(&b"cells=6\n"[..behind]);
            all_refuse(&card, refusal(6, [7, 0]));
        }
    }
    for text in losses::OTHER_LINES {
        assert!(open(&bench::written_with_line(7, text.as_bytes())).is_ok());
    }
}

/// Counts of the layers one after the other: one too few of the first is not made good by one more of the second.
#[test]
fn losses_belong_to_their_layers() {
    let header = |planes: &[u64], text: &str| {
        let cells = planes.iter().sum();
        let mut lines = header_lines((3, 3), 1, "linear", 0, planes, cells).to_vec();
        lines.insert(6, text.to_string());
        card_of(&lines, &[])
    };
    // Of layer 0 two, at most 1 and 2, of layer 2 three, at most 1, 2 and 4; layer 1 has points and no planes.
    let right = "loss=1,2,1,2,4";
    assert!(open(&header(&[2, 0, 3], right)).is_ok());
    for planes in [[3, 0, 2], [1, 0, 4], [2, 1, 2], [1, 1, 3], [0, 2, 3]] {
        let opened = open(&header(&planes, right));
        let most: Vec<u64> = planes
            .iter()
            .flat_map(|&n| (0..n).map(|d| 1 << d))
            .collect();
        let fits = [1, 2, 1, 2, 4].iter().zip(most).all(|(n, most)| *n <= most);
        match fits {
            true => assert_eq!(opened.unwrap().planes, planes),
            false => assert_eq!(opened, Err(refusal(6, [7, 0]))),
        }
    }
    for text in [
        "loss=1,2,1,2",
        "loss=1,2,1,2,4,1",
        "loss=1,1,2,2,4",
        "loss=1,2,2,2,4",
    ] {
        all_refuse(&header(&[2, 0, 3], text), refusal(6, [7, 0]));
    }
}

/// Nothing behind the sign where there are no planes, and then nothing else.
#[test]
fn no_losses_of_no_planes() {
    let header = |text: &str| {
        let mut lines = header_lines((4, 4), 2, "cubic", 9, &[0; 5], 0).to_vec();
        lines.insert(6, text.to_string());
        card_of(&lines, &[])
    };
    let opened = open(&header("loss=")).unwrap();
    assert_eq!(opened.losses, Some(vec![vec![]; 5]));
    assert_eq!(opened.print(), header("loss="));
    for text in [
        "loss=0",
        "loss=,",
        "loss=0,0,0,0,0",
        "loss= ",
        "loss",
        "loss=1",
    ] {
        all_refuse(&header(text), refusal(6, [7, 0]));
    }
}

/// All 23 digits of all 13 layers: 299 numbers, each at its most, and one of them one more or missing.
#[test]
fn the_longest_lines_of_losses() {
    let most = losses::longest();
    let card = losses::longest_header(&most);
    let opened = open(&card).unwrap();
    let told = opened.losses.as_ref().map(|losses| losses.concat());
    assert_eq!(told, Some(most.clone()));
    assert_eq!(card.len(), opened.header_length);
    let bytes = card.len() + 32 * opened.cells as usize;
    assert!(bytes <= OUTPUT_BYTES, "{bytes}");
    for at in 0..most.len() {
        for wrong in losses::wrong_at(&most, at) {
            assert_eq!(
                open(&losses::longest_header(&wrong)),
                Err(refusal(6, [7, 0]))
            );
        }
    }
}

#[test]
fn wrong_totals_give_6_at_the_line_of_cells() {
    // 256 points need one cell a plane, 257 need two, 8,192 need 32.
    for (cols, planes, total) in [(256, 3, 3), (257, 3, 6), (8192, 23, 736)] {
        for cells in [0, 1, total - 1, total, total + 1, 32 * total, 1012, 1013] {
            let mut lines = header_lines((1, cols), 0, "linear", 0, &[planes], cells).to_vec();
            let old = card_of(&lines, &[]);
            lines.insert(6, format!("loss={}", vec!["0"; planes as usize].join(",")));
            for (card, line) in [(old, 7), (card_of(&lines, &[]), 8)] {
                if cells == total {
                    assert_eq!(open(&card).unwrap().cells, total);
                } else {
                    all_refuse(&card, refusal(6, [line, 0]));
                }
            }
        }
    }
}

/// A wrong line of losses comes before wrong cells, and behind a right one there is no other.
#[test]
fn losses_come_before_cells() {
    for cells in [&b"cells=5"[..], b"cells=6", b"loss=1,1,3,7,5,1", b""] {
        let mut lines = bench::written_lines();
        (lines[6], lines[7]) = (b"loss=1,1,3,7,5", cells);
        all_refuse(&card_of(&lines, &bench::CELLS), refusal(6, [7, 0]));
        lines[6] = bench::LOSSES;
        let card = card_of(&lines, &bench::CELLS);
        match cells {
            b"cells=6" => assert!(open(&card).is_ok()),
            _ => all_refuse(&card, refusal(6, [8, 0])),
        }
    }
}

#[test]
fn lines_missing_doubled_or_swapped_in_a_card_written_now() {
    let lines = bench::written_lines();
    for number in 1..=8 {
        let here = refusal(6, [number as u64, 0]);
        let mut missing = lines.clone();
        missing.remove(number - 1);
        let card = card_of(&missing, &bench::CELLS);
        match number {
            // Without its losses it is an old card.
            7 => assert_eq!(card, bench::card()),
            // Without line 8 the bytes of the cells stand in its place; they hold no byte 10.
            8 => all_refuse(&card, refusal(5, [0, 0])),
            _ => all_refuse(&card, here),
        }
        let mut empty = lines.clone();
        empty.insert(number - 1, b"");
        all_refuse(&card_of(&empty, &bench::CELLS), here);
        if number < 8 {
            let mut doubled = lines.clone();
            doubled.insert(number, lines[number - 1]);
            let next = refusal(6, [number as u64 + 1, 0]);
            all_refuse(&card_of(&doubled, &bench::CELLS), next);
            let mut swapped = lines.clone();
            swapped.swap(number - 1, number);
            let card = card_of(&swapped, &bench::CELLS);
            // With its cells in line 7 it is an old card, and its losses stand where the planes begin.
            match number {
                7 => all_refuse(&card, refusal(7, [0, 0])),
                _ => all_refuse(&card, here),
            }
        }
    }
}

#[test]
fn lines_missing_doubled_or_swapped_give_6() {
    for number in 1..=7 {
        let mut missing = bench::LINES.to_vec();
        missing.remove(number - 1);
        // Without line 7 the bytes of the cells stand in its place; they hold no byte 10.
        let expected = if number == 7 {
            refusal(5, [0, 0])
        } else {
            refusal(6, [number as u64, 0])
        };
        all_refuse(&card_of(&missing, &bench::CELLS), expected);
        let mut empty = bench::LINES.to_vec();
        empty.insert(number - 1, b"");
        all_refuse(
            &card_of(&empty, &bench::CELLS),
            refusal(6, [number as u64, 0]),
        );
        if number < 7 {
            let mut doubled = bench::LINES.to_vec();
            doubled.insert(number, bench::LINES[number - 1]);
            let next = refusal(6, [number as u64 + 1, 0]);
            all_refuse(&card_of(&doubled, &bench::CELLS), next);
            let mut swapped = bench::LINES.to_vec();
            swapped.swap(number - 1, number);
            let here = refusal(6, [number as u64, 0]);
            all_refuse(&card_of(&swapped, &bench::CELLS), here);
        }
    }
}

#[test]
fn bytes_after_the_last_cell_give_7() {
    let mut random = Random::new(302);
    let mut cards = vec![bench::card(), bench::written_card()];
    for _ in 0..10 {
        cards.push(Case::small(&mut random).write().card);
    }
    // A card of no cells.
    let lines = header_lines((1, 1), 6, "cubic", 0, &[0; 13], 0);
    cards.push(card_of(&lines, &[]));
    for card in cards {
        assert!(open(&card).is_ok());
        for more in [1, 31, 32, 33, 40_000] {
            let mut longer = card.clone();
            longer.extend(vec![0; more]);
            all_refuse(&longer, refusal(7, [0, 0]));
            longer[card.len()..].fill(10);
            all_refuse(&longer, refusal(7, [0, 0]));
        }
    }
    // A doubled last line makes the cells too many.
    let mut doubled = bench::LINES.to_vec();
    doubled.push(b"cells=6");
    all_refuse(&card_of(&doubled, &bench::CELLS), refusal(7, [0, 0]));
}
