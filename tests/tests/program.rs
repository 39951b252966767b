//! The programs `show` and `trace`, as `programs/build` builds them, against the model: what they print of
//! any input, `show` of files by name, and `trace compare` of two files. Then the kept run of `show`, and the examples,
//! against the model.

mod common;

use common::files::{bytes, file, text};
use common::{bench, hour};
use std::io::Write;
use std::path::{Path, PathBuf};
use std::process::{Command, Stdio};
use trace_card_tests::model::program::{shown, trace, trace_compare};
use trace_card_tests::model::{open, Curve};
use trace_card_tests::random::cases::{Case, LARGE_SIZES};
use trace_card_tests::random::losses::{any_kind, old};
use trace_card_tests::random::sheets::Kind;
use trace_card_tests::random::Random;

/// A run of a program in this folder, with these arguments and with these bytes on its standard
/// input: what it prints, what it says on standard error, and what it ends with.
fn run_program(
    name: &str,
    folder: &Path,
    arguments: &[&str],
    input: &[u8],
) -> (String, String, i32) {
    let program = file("target/bin").join(name);
    let mut child = Command::new(&program)
        .args(arguments)
        .current_dir(folder)
        .stdin(Stdio::piped())
        .stdout(Stdio::piped())
        .stderr(Stdio::piped())
        .spawn()
        .unwrap_or_else(|error| {
            panic!(
                "{}: {error}; run `programs/build` first",
                program.display()
            )
        });
    let mut stdin = child.stdin.take().unwrap();
    let input = input.to_vec();
    // The program may answer before it has read everything, so a closed pipe is fine.
    let writer = std::thread::spawn(move || drop(stdin.write_all(&input)));
    let output = child.wait_with_output().unwrap();
    writer.join().unwrap();
    let text = |bytes| String::from_utf8(bytes).unwrap();
    let status = output.status.code().expect("a program that ends");
    (text(output.stdout), text(output.stderr), status)
}

/// A run of `show`, which ends with 0 in every case.
fn run(folder: &Path, names: &[&str], input: &[u8]) -> (String, String) {
    let (printed, said, status) = run_program("show", folder, names, input);
    assert_eq!(status, 0);
    (printed, said)
}

/// The words of `trace` that take a card on standard input, and all that it lists.
const WORDS: [&str; 2] = ["show", "roll"];
const LISTED: [&str; 3] = ["show", "roll", "compare"];

/// `show`, and `trace` with each of its words, on the same input.
fn check(input: &[u8]) {
    assert_eq!(run(&file("."), &[], input), (shown(input), String::new()));
    for word in WORDS {
        let (printed, status) = trace(&[word], input);
        assert_eq!(
            run_program("trace", &file("."), &[word], input),
            (printed, String::new(), status),
            "trace {word}"
        );
    }
}

#[test]
fn small_cards_whole_cut_and_damaged() {
    let mut random = Random::new(581);
    for _ in 0..60 {
        let card = Case::small(&mut random).write().card;
        let card = any_kind(&mut random, card);
        let header = open(&card).unwrap().header_length;
        check(&card);
        check(&card[..random.length(0, card.len())]);
        check(&card[..header]);
        check(&card[..header - 1]);
        let mut damaged = card.clone();
        damaged[random.below(card.len() as u64) as usize] ^= 1 << random.below(8);
        check(&damaged);
        let mut longer = card;
        longer.push(0);
        check(&longer);
    }
}

/// Cards up to the longest there are, which fill most of the programs' buffer.
#[test]
fn the_largest_cards() {
    let mut random = Random::new(582);
    let mut longest = 0;
    for (rows, cols) in LARGE_SIZES {
        let mut case = Case::of_kind(&mut random, Kind::Ends, rows, cols);
        (case.levels, case.step) = (6, 0);
        let card = case.write().card;
        longest = longest.max(card.len());
        check(&card);
        check(&card[..card.len() / 2]);
    }
    assert!(longest > 29_000, "{longest}");
}

/// Input far longer than any card: the answer is that of all of it, wherever its lines end. The
/// programs' buffer has 40,000 bytes.
#[test]
fn input_of_any_length() {
    let mut random = Random::new(583);
    let card = Case::of_size(&mut random, 5, 7).write().card;
    let header = open(&card).unwrap().header_length;
    for length in [39_999, 40_000, 40_001, 80_000, 1_000_000] {
        check(&vec![b'7'; length]);
        let mut ended = vec![b'7'; length];
        ended.push(10);
        check(&ended);
        ended.extend(vec![10; 50]);
        check(&ended);
        // A right header, and too much behind it.
        let mut longer = card[..header].to_vec();
        longer.resize(length, 0);
        check(&longer);
        // A right header whose lines are cut short by an endless one.
        for line in 0..8 {
            let lines: Vec<&[u8]> = card[..header].split_inclusive(|&byte| byte == 10).collect();
            let mut endless = lines[..line].concat();
            endless.extend_from_slice(&lines[line][..lines[line].len() - 1]);
            endless.resize(length, b'0');
            check(&endless);
            endless.push(10);
            check(&endless);
        }
    }
}

/// What is printed of a card that an argument names: a line with the name before it.
fn named(name: &str, card: &[u8]) -> String {
    format!("{name}:\n{}", shown(card))
}

/// Files by name, in the order of the arguments; standard input is left alone. A name that is not
/// there, wherever it stands, is said to be so, and the others are shown.
#[test]
fn cards_by_name() {
    let mut random = Random::new(584);
    let card = Case::of_size(&mut random, 9, 6).write().card;
    let files = [
        ("whole", card.clone()),
        ("half", card[..card.len() / 2].to_vec()),
        ("empty", vec![]),
        ("long", [vec![b'7'; 50_000], vec![10]].concat()),
        ("longer", [card.clone(), vec![0; 50_000]].concat()),
        ("again", card.clone()),
    ];
    let folder = folder("cards_by_name");
    let mut expected = String::new();
    for (name, bytes) in &files {
        std::fs::write(folder.join(name), bytes).unwrap();
        expected += &named(name, bytes);
    }
    let names: Vec<&str> = files.iter().map(|(name, _)| *name).collect();
    assert_eq!(
        run(&folder, &names, &card),
        (expected.clone(), String::new())
    );
    let error = "missing: cannot be opened\n";
    for at in 0..=names.len() {
        let mut names = names.clone();
        names.insert(at, "missing");
        assert_eq!(
            run(&folder, &names, &card),
            (expected.clone(), error.to_string())
        );
    }
    assert_eq!(
        run(&folder, &["missing"], &card),
        (String::new(), error.to_string())
    );
}

/// A folder of a test alone.
fn folder(name: &str) -> PathBuf {
    let folder = Path::new(env!("CARGO_TARGET_TMPDIR")).join(name);
    std::fs::create_dir_all(&folder).unwrap();
    folder
}

/// Two files to compare, in a folder of their own.
struct Files {
    folder: PathBuf,
}

impl Files {
    fn new(name: &str) -> Files {
        Files {
            folder: folder(name),
        }
    }

    /// A run of `trace compare`. What is on standard input makes no difference.
    fn run(&self, names: &[&str]) -> (String, String, i32) {
        let words = [&["compare"], names].concat();
        run_program("trace", &self.folder, &words, &bench::card())
    }

    fn put(&self, name: &str, bytes: &[u8]) {
        std::fs::write(self.folder.join(name), bytes).unwrap();
    }

    /// Files of these bytes are compared as the model does, either way round. Answers what that ends with.
    fn check(&self, first: &[u8], second: &[u8]) -> i32 {
        self.put("first", first);
        self.put("second", second);
        let expected = |(printed, status)| (printed, String::new(), status);
        let turned = expected(trace_compare(second, first));
        assert_eq!(self.run(&["second", "first"]), turned);
        let expected = expected(trace_compare(first, second));
        assert_eq!(self.run(&["first", "second"]), expected);
        expected.2
    }
}

#[test]
fn two_cards_whole_cut_and_damaged() {
    let mut random = Random::new(585);
    let files = Files::new("two_cards");
    let mut met = [0; 2];
    for _ in 0..60 {
        let case = Case::small(&mut random);
        let mut other = Case::of_size(&mut random, case.rows, case.cols);
        if random.once_in(2) {
            other.samples.clone_from(&case.samples);
        }
        let [first, second] = [case, other].map(|case| any_kind(&mut random, case.write().card));
        let header = open(&first).unwrap().header_length;
        let mut damaged = first.clone();
        damaged[random.below(first.len() as u64) as usize] ^= 1 << random.below(8);
        let longer = [&first[..], &[0]].concat();
        let cut = random.length(0, first.len());
        for first in [
            &first[..],
            &first[..cut],
            &first[..header],
            &first[..header - 1],
            &damaged,
            &longer,
        ] {
            let other_cut = random.length(0, second.len());
            met[files.check(first, &second) as usize] += 1;
            met[files.check(first, &second[..other_cut]) as usize] += 1;
        }
        // Of another size, though it may have as many points.
        let third = Case::small(&mut random).write().card;
        met[files.check(&first, &third) as usize] += 1;
    }
    assert!(met.iter().all(|&times| times > 100), "{met:?}");
    // A card beside itself.
    for length in [160, 256, 63] {
        let card = &bench::card()[..length];
        files.put("card", card);
        let (printed, status) = trace_compare(card, card);
        assert_eq!(
            files.run(&["card", "card"]),
            (printed, String::new(), status)
        );
    }
}

/// The example cards, from the project's root.
#[test]
fn the_bench_card_beside_the_finer_one() {
    let files = Files { folder: file(".") };
    for (name, lines) in [
        ("examples/bench.card", "apart=1\nfirst=0,4\n00001\n"),
        ("examples/bench-160.card", "apart=0\nfirst=0,0\n00000\n"),
    ] {
        let run = files.run(&[name, "examples/bench-fine.card"]);
        assert_eq!(run, (lines.to_string(), String::new(), 0));
    }
}

#[test]
fn the_largest_cards_beside_each_other() {
    let mut random = Random::new(586);
    let files = Files::new("largest_beside");
    let mut before: Option<Vec<u8>> = None;
    for (rows, cols) in LARGE_SIZES {
        let mut case = Case::of_kind(&mut random, Kind::Ends, rows, cols);
        (case.levels, case.step) = (6, 0);
        let other = Case::of_kind(&mut random, Kind::Noise, rows, cols);
        let [first, second] = [case, other].map(|case| case.write().card);
        assert_eq!(files.check(&first, &second), 0);
        assert_eq!(files.check(&first[..first.len() / 2], &second), 0);
        // Of two sizes.
        if let Some(before) = before {
            assert_eq!(files.check(&first, &before), 1);
        }
        before = Some(first);
    }
}

/// Files far longer than any card, first, second or both: the first one's refusal, then the second's.
#[test]
fn files_of_any_length() {
    let mut random = Random::new(587);
    let files = Files::new("any_length");
    let card = Case::of_size(&mut random, 5, 7).write().card;
    let header = open(&card).unwrap().header_length;
    let other_size = Case::of_size(&mut random, 7, 5).write().card;
    let mut spoilt = card.clone();
    spoilt[header..header + 32].fill(0xFF);
    assert_eq!(trace_compare(&spoilt, &card).0, "refused=8\n");
    for length in [39_999, 40_000, 40_001, 100_000] {
        let mut ended = vec![b'7'; length];
        ended.push(10);
        let mut longer = card[..header].to_vec();
        longer.resize(length, 0);
        // No end of a line, a wrong line, and a right header with too much behind it: 5, 6 and 7.
        let long = [vec![b'7'; length], ended, longer];
        for (at, one) in long.iter().enumerate() {
            for other in [&card, &other_size, &spoilt, &long[(at + 1) % 3]] {
                assert_eq!(files.check(one, other), 1);
            }
        }
    }
}

/// A file that is not there, or a folder, is named on standard error, first or second, whatever the other holds.
#[test]
fn files_that_cannot_be_read() {
    let files = Files::new("not_there");
    files.put("card", &bench::card());
    files.put("cut", &bench::card()[..63]);
    for other in ["card", "cut"] {
        for unread in ["missing", "."] {
            for names in [[unread, other], [other, unread]] {
                let said = format!("{unread}: cannot be read\n");
                assert_eq!(files.run(&names), (String::new(), said, 2));
            }
        }
    }
    let (printed, said, status) = files.run(&["missing", "gone"]);
    assert_eq!((printed.as_str(), status), ("", 2));
    assert_eq!(said, "missing: cannot be read\n");
}

/// No word, one that is none, or other words or names behind it than it takes: the words are listed on standard
/// error alone, and whatever card is there makes no difference.
#[test]
fn words_that_trace_does_not_take() {
    let card = bench::card();
    let name = "examples/bench.card";
    let words: [&[&str]; 22] = [
        &[],
        &[""],
        &["-"],
        &["write"],
        &["Roll"],
        &["rol"],
        &["rolls"],
        &["show "],
        &["--help"],
        &["show", "roll"],
        &["roll", "roll"],
        &["show", ""],
        &["roll", name],
        &[name, "show"],
        &["compare"],
        &["compare", name],
        &["compare", name, name, name],
        &["compare", name, name, ""],
        &["Compare", name, name],
        &["compares", name, name],
        &["show", name, name],
        &[name, "compare", name],
    ];
    for words in words {
        for input in [&card[..], &card[..63], b""] {
            assert_eq!(trace(words, input), (String::new(), 2));
            let (printed, said, status) = run_program("trace", &file("."), words, input);
            assert_eq!((printed.as_str(), status), ("", 2), "{words:?}");
            let listed: Vec<&str> = said.split(|c: char| !c.is_alphanumeric()).collect();
            assert!(LISTED.iter().all(|word| listed.contains(word)), "{said}");
        }
    }
}

/// `rt` holds the run of `show` to its file `stdout`. That file is, for each card that `args` names,
/// in order, what the model shows of it, its name before it; nothing else.
#[test]
fn the_kept_run_on_many_cards() {
    let stdout = text("crates/show/stdout");
    assert!(!stdout.is_empty());
    let mut rest = stdout.as_str();
    for name in text("crates/show/args").lines() {
        let part = named(name, &bytes(&format!("crates/show/data/{name}")));
        rest = rest
            .strip_prefix(part.as_str())
            .unwrap_or_else(|| panic!("the model gives\n{part}and the file goes on\n{rest}"));
    }
    assert_eq!(rest, "");
}

/// The sheet of `axles.txt`, a line for each row, with the settings that README says.
fn axles() -> Case {
    let rows: Vec<Vec<i32>> = text("examples/axles.txt")
        .lines()
        .map(|line| {
            let numbers = line.split(' ');
            numbers.map(|number| number.parse().unwrap()).collect()
        })
        .collect();
    assert!(rows.iter().all(|row| row.len() == rows[0].len()));
    Case {
        rows: rows.len() as u64,
        cols: rows[0].len() as u64,
        levels: 2,
        curve: Curve::Cubic,
        step: 5,
        samples: rows.concat(),
    }
}

#[test]
fn the_example_cards() {
    let card = axles().write().card;
    assert_eq!(bytes("examples/axles.card"), card);
    assert_eq!(bytes("examples/axles-half.card"), card[..808]);
    // Half of the planes of an hour, and the same of an old card.
    let card = hour::sheet().write().card;
    assert_eq!(bytes("examples/hour-half.card"), card[..2896]);
    assert_eq!(bytes("examples/hour-half-old.card"), old(&card)[..2650]);
    let opened = open(&card).unwrap();
    assert_eq!(2896, opened.header_length + 32 * opened.cells as usize / 2);
    // The bench card is an old one.
    let card = bench::card();
    assert_eq!(bytes("examples/bench.card"), card);
    assert_eq!(bytes("examples/bench-160.card"), card[..160]);
    assert_eq!(bytes("examples/bench-fine.card"), bench::fine_card());
    let (page, _) = trace(&["roll"], &card[..160]);
    assert_eq!(text("examples/bench-160.roll"), page);
}

/// README has the whole text of one example card and of its roll, the first six lines of another's, and a
/// comparison.
#[test]
fn the_texts_in_the_readme() {
    let readme = text("README.md");
    let bench = shown(&bytes("examples/bench-160.card"));
    assert!(readme.contains(&format!("\n```\n{bench}```\n")), "{bench}");
    let axles = shown(&bytes("examples/axles-half.card"));
    let first: String = axles.split_inclusive('\n').take(6).collect();
    let command = "$ examples/show examples/axles-half.card";
    let block = format!("\n```\n{command}\n{first}..\n```\n");
    assert!(readme.contains(&block), "{block}");
    let roll = text("examples/bench-160.roll");
    let block = format!("\n```\n$ examples/trace roll examples/bench-160.card\n{roll}```\n");
    assert!(readme.contains(&block), "{block}");
    let names = ["examples/bench.card", "examples/bench-fine.card"];
    let [first, second] = names.map(bytes);
    let (lines, _) = trace_compare(&first, &second);
    let command = format!("$ examples/trace compare {}", names.join(" "));
    let block = format!("\n```\n{command}\n{lines}```\n");
    assert!(readme.contains(&block), "{block}");
}
