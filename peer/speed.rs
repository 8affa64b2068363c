//! Speed: the same inputs by the peer and by the proved library.

use crate::answers::{comparer, Buffers};
use crate::ours;
use crate::peer::{self, COPY_SIZE, MAX_INPUT};
use crate::random::{largest, Draft, Random};
use crate::search;
use std::hint::black_box;
use std::time::Duration;

#[repr(C)]
struct Timespec {
    seconds: i64,
    nanoseconds: i64,
}

unsafe extern "C" {
    fn clock_gettime(clock: i32, time: *mut Timespec) -> i32;
}

/// The nanoseconds of processor time that this thread has had (clock 3), so that waiting for a
/// processor does not count.
pub fn now() -> f64 {
    let mut time = Timespec { seconds: 0, nanoseconds: 0 };
    let status = unsafe { clock_gettime(3, &mut time) };
    assert_eq!(status, 0, "the clock is there");
    time.seconds as f64 * 1e9 + time.nanoseconds as f64
}

/// The least nanoseconds that one call takes, of several batches.
pub fn nanoseconds(mut call: impl FnMut()) -> f64 {
    call();
    let begin = now();
    call();
    let once = now() - begin;
    let batch = (400_000.0 / (once + 1.0)).clamp(1.0, 100_000.0) as u32;
    let mut best = f64::MAX;
    let begin = now();
    for turn in 0..60 {
        if turn >= 2 && now() - begin > 150e6 {
            break;
        }
        let start = now();
        for _ in 0..batch {
            call();
        }
        best = best.min((now() - start) / batch as f64);
    }
    best
}

pub fn check_times(bytes: &[u8]) -> [f64; 2] {
    [
        nanoseconds(|| drop(black_box(peer::check(black_box(bytes), None)))),
        nanoseconds(|| {
            black_box(ours::check(black_box(bytes)));
        }),
    ]
}

/// `shown`: whether the peer makes the inputs that are not asked for, as the proved listing does.
pub fn list_times(bytes: &[u8], shown: bool) -> [f64; 2] {
    let mut out = [0; 256];
    [
        nanoseconds(|| drop(black_box(peer::list_file(black_box(bytes), shown)))),
        nanoseconds(|| {
            black_box(ours::list(black_box(bytes), &mut out));
        }),
    ]
}

pub fn compare_times(buffers: &mut Buffers, bytes: &[u8], one: &[u8], two: &[u8]) -> [f64; 2] {
    let wide = |word: &[u8]| word.iter().map(|&symbol| symbol as u64).collect::<Vec<_>>();
    let (left, right) = (wide(one), wide(two));
    let theirs = nanoseconds(|| {
        black_box(buffers.peer(black_box(bytes), &left, &right, MAX_INPUT, COPY_SIZE));
    });
    let own = nanoseconds(|| {
        black_box(ours::compare(black_box(bytes), one, two, &mut buffers.input, &mut buffers.rows));
    });
    [theirs, own]
}

/// A new comparer over the grammar, and a run.
pub fn run_times(bytes: &[u8], word: &[u8], input: &[u8]) -> [f64; 2] {
    let wide: Vec<u64> = word.iter().map(|&symbol| symbol as u64).collect();
    [
        nanoseconds(|| {
            let _ = black_box(comparer(black_box(bytes)).run(&wide, input));
        }),
        nanoseconds(|| {
            black_box(ours::run(black_box(bytes), word, input));
        }),
    ]
}

pub fn row(case: &str, times: [f64; 2]) {
    println!("{case:<58} {:>12.0} {:>12.0} {:>8.2}", times[0], times[1], times[1] / times[0]);
}

fn head(title: &str) {
    println!("\n{title:<58} {:>12} {:>12} {:>8}", "peer ns", "ours ns", "ratio");
}

/// Two names, foot lengths, four rules and a row.
pub const SMALL: [u8; 43] = [
    2, 98, 99, 1, 1, 0, 4, 0, 76, 0, 0, 1, 14, 0, 0, 83, 0, 0, 0, 0, 2, 0, 0, 1, 76, 0, 0, 1, 14, 0, 1, 83, 0, 0, 0, 0,
    2, 0, 1, 1, 1, 1, 0,
];

/// Two different symbols of a file that are the same.
fn alike(bytes: &[u8]) -> [u8; 2] {
    let names = &bytes[1..1 + bytes[0] as usize];
    let listing = peer::list_file(bytes, false);
    let smallest = |line: &str| line.as_bytes().last().and_then(|name| names.iter().position(|other| other == name));
    let pairs = listing.lines().enumerate().filter_map(|(at, line)| Some([at as u8, smallest(line)? as u8]));
    pairs.into_iter().find(|pair| pair[0] != pair[1]).expect("two symbols are the same")
}

/// A file of the folder.
fn data(folder: &str, name: &str) -> Vec<u8> {
    std::fs::read(format!("{folder}/{name}.in")).unwrap_or_else(|error| panic!("{folder}/{name}.in: {error}"))
}

const STRESS: [&str; 5] = ["chain", "copies", "deep", "equal", "long"];

/// The comparison, and what it takes beyond the taking up of the grammar.
fn compare_rows(buffers: &mut Buffers, name: &str, bytes: &[u8], one: &[u8], two: &[u8]) {
    let told = ours::compare(bytes, one, two, &mut buffers.input, &mut buffers.rows);
    let outcome = match told.verdict {
        0 => format!("same, {} rows", buffers.rows[0]),
        1 => format!("different, {} letters", told.second),
        _ => format!("refused {}", told.number),
    };
    let whole = compare_times(buffers, bytes, one, two);
    row(&format!("{name}: {outcome}"), whole);
    let taken_up = run_times(bytes, &[], &[]);
    row("    less taking up", [0, 1].map(|at| (whole[at] - taken_up[at]).max(1.0)));
}

fn print_runs() {
    head("run of a word, with taking up");
    let mut line = Draft::new(1, &[1]);
    line.rule(0, b'A', 270, &[0]);
    line.rule(0, b'B', 0, &[]);
    let mut input = vec![b'A'; MAX_INPUT - 1];
    input.push(b'B');
    row("16,384 letters, one symbol left at each", run_times(&line.bytes(), &[0], &input));
    let input: Vec<u8> = (0..MAX_INPUT - 1).map(|at| if at < MAX_INPUT / 2 - 1 { b'S' } else { b'L' }).collect();
    row("16,383 letters, up to 8,192 symbols left", run_times(&SMALL, &[1], &input));
    row("one letter", run_times(&SMALL, &[1], b"L"));
}

pub fn print(folder: &str, seed: u64, time: Duration) {
    let mut buffers = Buffers::new();
    let bytes = data(folder, "typical");
    let [one, two] = alike(&bytes);
    println!("speed: least of several batches; the ratio is ours by the peer's");
    head("file check");
    row("43 bytes", check_times(&SMALL));
    row(&format!("typical, 8 symbols, {} bytes", bytes.len()), check_times(&bytes));
    row("largest, 14,565 bytes", check_times(&largest()));

    head("listing; the peer makes no inputs");
    row("43 bytes", list_times(&SMALL, false));
    row("typical, 8 symbols", list_times(&bytes, false));
    for name in STRESS {
        row(name, list_times(&data(folder, name), false));
    }
    head("listing; both make the inputs of each \"different\"");
    row("43 bytes", list_times(&SMALL, true));
    row("typical, 8 symbols", list_times(&bytes, true));
    for name in STRESS {
        row(name, list_times(&data(folder, name), true));
    }

    head("taking up a grammar: check, survey, an empty run");
    row("43 bytes", run_times(&SMALL, &[], &[]));
    row("typical, 8 symbols", run_times(&bytes, &[], &[]));
    row("deep, 32 symbols, 832 rules", run_times(&data(folder, "deep"), &[], &[]));

    head("one comparison by a new comparer, with taking up");
    compare_rows(&mut buffers, "43 bytes, b c", &SMALL, &[0], &[1]);
    compare_rows(&mut buffers, "typical, two symbols", &bytes, &[one], &[two]);
    let differs = (0..8)
        .find(|&other| ours::compare(&bytes, &[other], &[two], &mut buffers.input, &mut buffers.rows).verdict == 1);
    if let Some(other) = differs {
        compare_rows(&mut buffers, "typical, two other symbols", &bytes, &[other], &[two]);
    }
    for name in ["chain", "deep"] {
        compare_rows(&mut buffers, &format!("{name}, 4 5"), &data(folder, name), &[4], &[5]);
    }
    for (_, title, bytes, one, two) in search::kept(folder) {
        compare_rows(&mut buffers, title, &bytes, &one, &two);
    }
    let found = search::slowest(&mut Random::new(seed), time, None, &mut buffers, search::Aim::Time);
    compare_rows(&mut buffers, "slowest found now", &found.draft.bytes(), &found.one, &found.two);
    let found = search::slowest(&mut Random::new(seed), time, None, &mut buffers, search::Aim::Ratio);
    compare_rows(&mut buffers, "worst ratio found now", &found.draft.bytes(), &found.one, &found.two);
    print_runs();
}
