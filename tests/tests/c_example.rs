//! examples/figure.c, built against the proved library, against the model: what it prints of any
//! file. Then include/trace_card.h in C and in C++, and README's section on its use.

mod common;

use common::files::{bytes, file, text};
use common::{bench, card_of};
use std::io::ErrorKind;
use std::path::{Path, PathBuf};
use std::process::Command;
use std::sync::OnceLock;
use trace_card_tests::boundary::{ANSWER, PLAN};
use trace_card_tests::model::roll::LINE_BYTES;
use trace_card_tests::model::sheet::MOST_POINTS;
use trace_card_tests::model::write::OUTPUT_BYTES;
use trace_card_tests::model::{open, show, Refusal};
use trace_card_tests::random::cases::{Case, LARGE_SIZES};
use trace_card_tests::random::losses::any_kind;
use trace_card_tests::random::sheets::Kind;
use trace_card_tests::random::Random;

/// README's command, but for the place of the program.
const BUILD: &str = "cc -std=c11 -Iinclude examples/figure.c -Ltarget/staticlib -ltrace_card";

/// What every unit has to compile with.
const WARNINGS: [&str; 4] = ["-Wall", "-Wextra", "-Wpedantic", "-Werror"];

/// The program's buffer. A file that fills it is not read further.
const ROOM: usize = OUTPUT_BYTES + 1024;

/// A file of these tests alone.
fn temporary(name: &str) -> PathBuf {
    Path::new(env!("CARGO_TARGET_TMPDIR")).join(name)
}

/// Runs a compiler from the project's root, and says whether it was there.
fn compiled(command: &str, output: &Path, sources: &[&Path]) -> bool {
    let mut words = command.split(' ');
    let status = Command::new(words.next().unwrap())
        .args(words)
        .args(WARNINGS)
        .args(sources)
        .arg("-o")
        .arg(output)
        .current_dir(file("."))
        .status();
    match status {
        Ok(status) => assert!(status.success(), "{command}"),
        Err(error) if error.kind() == ErrorKind::NotFound => return false,
        Err(error) => panic!("{command}: {error}"),
    }
    true
}

/// The program, built once.
fn program() -> &'static Path {
    static PROGRAM: OnceLock<PathBuf> = OnceLock::new();
    PROGRAM.get_or_init(|| {
        let program = temporary("figure");
        assert!(compiled(BUILD, &program, &[]), "no C compiler is there");
        program
    })
}

/// What the program ends with, and what it prints on its two outputs.
fn run(arguments: &[&Path]) -> (i32, String, String) {
    let output = Command::new(program()).args(arguments).output().unwrap();
    (
        output.status.code().unwrap(),
        String::from_utf8(output.stdout).unwrap(),
        String::from_utf8(output.stderr).unwrap(),
    )
}

/// What the program does with a file of these bytes. Tests run side by side, so each names its own.
fn run_on(name: &str, contents: &[u8]) -> (i32, String, String) {
    let path = temporary(name);
    std::fs::write(&path, contents).unwrap();
    run(&[&path])
}

/// The figure that is shown with a card, by the model.
fn figure_shown(card: &[u8]) -> Result<u64, Refusal> {
    let count = open(card)?.shape().count();
    let reached = show(card, &mut vec![0; count], &mut vec![0; count])?;
    Ok(reached.figure)
}

/// What the program has to end with and to print, by the model.
fn expected(card: &[u8]) -> (i32, String, String) {
    let (status, text) = match figure_shown(card) {
        Ok(figure) => (0, format!("figure={figure}\n")),
        Err(Refusal { number, details }) => {
            let [first, second] = details;
            let mut text = format!("refused={number}\n");
            if details != [0, 0] {
                text += &format!("details={first},{second}\n");
            }
            (1, text)
        }
    };
    (status, text, String::new())
}

fn check(name: &str, card: &[u8]) {
    assert_eq!(run_on(name, card), expected(card));
}

#[test]
fn the_example_cards() {
    for name in [
        "bench-160",
        "bench",
        "bench-fine",
        "axles-half",
        "axles",
        "hour-half",
        "hour-half-old",
    ] {
        let name = format!("examples/{name}.card");
        let (status, printed, said) = run(&[&file(&name)]);
        assert_eq!((status, printed, said), expected(&bytes(&name)), "{name}");
    }
}

/// The bench card, and what is written for its samples now, at every cut, from the empty file to the whole card, and with
/// bytes behind it.
#[test]
fn every_cut() {
    for mut card in [bench::card(), bench::written_card()] {
        for length in 0..=card.len() {
            check("cut.card", &card[..length]);
        }
        card.push(0);
        check("cut.card", &card);
    }
}

#[test]
fn every_damaged_byte() {
    for card in [bench::card(), bench::written_card()] {
        for place in 0..card.len() {
            for bit in [0, 7] {
                let mut card = card.clone();
                card[place] ^= 1 << bit;
                check("damaged.card", &card);
            }
        }
    }
}

/// Lines that the program itself reads, written as a card has them and as no card has them.
#[test]
fn lines_of_sizes() {
    let numbers: [&[u8]; 18] = [
        b"1",
        b"5",
        b"90",
        b"91",
        b"8192",
        b"8193",
        b"9999",
        b"10000",
        b"81920",
        b"18446744073709551617",
        b"0",
        b"01",
        b"-1",
        b"+1",
        b" 1",
        b"1 ",
        b"1\0",
        b"",
    ];
    for rows in numbers {
        for cols in numbers {
            let (rows, cols) = ([b"rows=", rows].concat(), [b"cols=", cols].concat());
            let mut lines = bench::LINES;
            (lines[0], lines[1]) = (&rows, &cols);
            check("sizes.card", &card_of(&lines, &bench::CELLS));
        }
    }
}

#[test]
fn small_cards_whole_and_cut() {
    let mut random = Random::new(591);
    for _ in 0..100 {
        let card = Case::small(&mut random).write().card;
        let card = any_kind(&mut random, card);
        check("small.card", &card);
        check("small.card", &card[..random.length(0, card.len())]);
    }
}

#[test]
fn the_largest_cards() {
    let mut random = Random::new(592);
    for (rows, cols) in LARGE_SIZES {
        let mut case = Case::of_kind(&mut random, Kind::Ends, rows, cols);
        (case.levels, case.step) = (6, 0);
        let card = case.write().card;
        check("large.card", &card);
        check("large.card", &card[..card.len() / 2]);
    }
}

/// What fits into the buffer is refused by the call; more is not cut, but said to be too much.
#[test]
fn longer_than_any_card() {
    for length in [OUTPUT_BYTES + 1, ROOM - 1, ROOM, ROOM + 1, 1_000_000] {
        let mut card = bench::card();
        card.resize(length, 0);
        let mut line = vec![b'7'; length];
        line[length - 1] = 10;
        for contents in [card, line, vec![b'7'; length]] {
            if length < ROOM {
                check("long.card", &contents);
            } else {
                let (status, printed, said) = run_on("long.card", &contents);
                assert_eq!((status, printed.as_str()), (2, ""));
                assert!(said.ends_with(": longer than any card\n"), "{said}");
            }
        }
    }
}

/// No file, two, one that is not there, and a folder.
#[test]
fn nothing_to_read() {
    let card = file("examples/bench.card");
    let missing = temporary("missing.card");
    let folder = file("examples");
    for arguments in [&[][..], &[&card, &card], &[&missing], &[&folder]] {
        let arguments: Vec<&Path> = arguments.iter().map(|path| path.as_path()).collect();
        let (status, printed, said) = run(&arguments);
        assert_eq!((status, printed.as_str()), (2, ""), "{arguments:?}");
        assert_ne!(said, "");
    }
}

/// Compiles a unit by some standard. C++ is passed over where no compiler for it is there.
fn compile(name: &str, standard: &str, unit: &str) {
    let is_cpp = standard.starts_with("c++");
    let (compiler, ending) = if is_cpp { ("c++", "cc") } else { ("cc", "c") };
    let source = temporary(&format!("{name}-{standard}.{ending}"));
    std::fs::write(&source, unit).unwrap();
    let command = format!("{compiler} -std={standard} -Iinclude -c");
    if !compiled(&command, &source.with_extension("o"), &[&source]) {
        assert!(is_cpp, "no C compiler is there");
        eprintln!("no C++ compiler is there: {name} is not tried in C++");
    }
}

/// Each name stands where the comment at the header's top counts its number.
#[test]
fn the_names_of_an_answer() {
    let unit = format!(
        r#"#include "trace_card.h"
#include <assert.h>
#define NUMBERS(n) ((n) * sizeof(uint64_t))
#define STANDS(name, at) static_assert(offsetof(struct trace_card_answer, name) == NUMBERS(at), #name)
#define HAS(name, n) static_assert(sizeof(((struct trace_card_answer *)0)->name) == NUMBERS(n), #name)
STANDS(refusal, 0);
HAS(refusal, 1);
STANDS(details, 1);
HAS(details, 2);
STANDS(size, 3);
HAS(size, 1);
STANDS(figure, 4);
HAS(figure, 1);
STANDS(plan, 5);
HAS(plan, {ANSWER} - 5);
static_assert(sizeof(struct trace_card_answer) == NUMBERS({ANSWER}), "all of it");
static_assert(TRACE_CARD_ANSWER_LENGTH == {ANSWER}, "an answer");
static_assert(TRACE_CARD_PLAN_LENGTH == {PLAN}, "a plan");
static_assert(5 + TRACE_CARD_PLAN_LENGTH <= {ANSWER}, "a plan in an answer");
static_assert(TRACE_CARD_MOST_POINTS == {MOST_POINTS}, "a sheet");
static_assert(TRACE_CARD_MOST_BYTES == {OUTPUT_BYTES}, "a card");
static_assert(TRACE_CARD_LINE_BYTES == {LINE_BYTES}, "a line");
"#
    );
    for standard in ["c11", "c++11"] {
        compile("names", standard, &unit);
    }
}

/// A roll from C, on a page of the length that the header says; one byte less is refused.
#[test]
fn a_roll_from_c() {
    let unit = r#"#include "trace_card.h"
#include <stdio.h>
static uint8_t card[TRACE_CARD_MOST_BYTES];
int main(void) {
    int32_t coefficients[5];
    int64_t values[5];
    uint8_t page[TRACE_CARD_LINE_BYTES * (5 + 1)];
    uint64_t answer[TRACE_CARD_ANSWER_LENGTH];
    size_t length = fread(card, 1, sizeof card, stdin);
    uint64_t refusal = trace_card_roll(card, length, coefficients, 5, values, 5, page, sizeof page, answer, TRACE_CARD_ANSWER_LENGTH);
    if (refusal != 0 || trace_card_roll(card, length, coefficients, 5, values, 5, page, sizeof page - 1, answer, TRACE_CARD_ANSWER_LENGTH) != 12)
        return 1;
    return fwrite(page, 1, sizeof page, stdout) == sizeof page ? 0 : 1;
}
"#;
    let (source, program) = (temporary("roll.c"), temporary("roll"));
    std::fs::write(&source, unit).unwrap();
    let command = "cc -std=c11 -Iinclude -Ltarget/staticlib";
    let library = Path::new("-ltrace_card");
    assert!(compiled(command, &program, &[&source, library]));
    let card = std::fs::File::open(file("examples/bench-160.card")).unwrap();
    let output = Command::new(&program).stdin(card).output().unwrap();
    assert!(output.status.success());
    assert_eq!(String::from_utf8(output.stdout).unwrap(), bench::ROLL);
}

/// A comparison from C, of the bench card and the finer one; with one mark too few it is refused.
#[test]
fn a_comparison_from_c() {
    let unit = r#"#include "trace_card.h"
#include <inttypes.h>
#include <stdio.h>
static uint8_t first[TRACE_CARD_MOST_BYTES], second[TRACE_CARD_MOST_BYTES];
static size_t card_in(const char *name, uint8_t *card) {
    FILE *file = fopen(name, "rb");
    if (file == NULL)
        return 0;
    size_t length = fread(card, 1, TRACE_CARD_MOST_BYTES, file);
    fclose(file);
    return length;
}
int main(int count, char **names) {
    int32_t first_coefficients[5], second_coefficients[5];
    int64_t first_values[5], second_values[5];
    uint8_t apart[5];
    uint64_t answer[TRACE_CARD_ANSWER_LENGTH];
    if (count != 3)
        return 2;
    size_t first_length = card_in(names[1], first), second_length = card_in(names[2], second);
    for (size_t marks = 4; marks <= 5; ++marks) {
        uint64_t refusal = trace_card_compare(first, first_length, second, second_length, first_coefficients, 5, first_values, 5,
            second_coefficients, 5, second_values, 5, apart, marks, answer, TRACE_CARD_ANSWER_LENGTH);
        printf("%" PRIu64 ": %" PRIu64 " apart, the first at %" PRIu64 ",%" PRIu64 "\n", refusal, answer[3], answer[4], answer[5]);
    }
    for (size_t at = 0; at < sizeof apart; ++at)
        printf("%d", apart[at]);
    return 0;
}
"#;
    let (source, program) = (temporary("compare.c"), temporary("compare"));
    std::fs::write(&source, unit).unwrap();
    let command = "cc -std=c11 -Iinclude -Ltarget/staticlib";
    let library = Path::new("-ltrace_card");
    assert!(compiled(command, &program, &[&source, library]));
    let names = ["examples/bench.card", "examples/bench-fine.card"].map(file);
    let output = Command::new(&program).args(&names).output().unwrap();
    assert!(output.status.success());
    let printed = String::from_utf8(output.stdout).unwrap();
    let expected = "3: 0 apart, the first at 0,0\n0: 1 apart, the first at 0,4\n00001";
    assert_eq!(printed, expected);
}

/// The section's command and what it says of a card, and its snippet, which C of 1999 takes too.
#[test]
fn the_section_of_the_readme() {
    let readme = text("README.md");
    let (_, section) = readme.split_once("\n## Use from C\n").unwrap();
    let name = "examples/axles-half.card";
    let (_, printed, _) = expected(&bytes(name));
    let block =
        format!("\n```\n$ {BUILD} -o target/figure\n$ target/figure {name}\n{printed}```\n");
    assert!(section.contains(&block), "{block}");

    let (_, snippet) = section.split_once("\n```c\n").unwrap();
    let (snippet, _) = snippet.split_once("```\n").unwrap();
    let unit = format!(
        r#"#include "trace_card.h"
#include <inttypes.h>
#include <stdio.h>
void snippet(const uint8_t *card, size_t length, int32_t *coefficients, int64_t *values, size_t points);
void snippet(const uint8_t *card, size_t length, int32_t *coefficients, int64_t *values, size_t points) {{
{snippet}}}
"#
    );
    for standard in ["c99", "c11", "c++11"] {
        compile("snippet", standard, &unit);
    }
}
