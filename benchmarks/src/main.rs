//! The library through its static library beside the reference, on the same work in one process.
//!
//!     benchmarks                           times, as a table
//!     benchmarks WORK ours|reference N     one piece of work, for counting instructions

use std::env;
use std::hint::black_box;
use std::process::exit;
use std::time::Instant;

use gelmuska::Word as Parts;
use reference::channels::Channel;
use reference::kinds::{Command, Commands};
use reference::link::Link;
use reference::{report, setups, words};

/// A piece of work, done so many times by either side. Both sides answer a number that depends on all of it, so that none is left
/// out, and the two numbers are compared.
struct Work {
    name: &'static str,
    unit: &'static str,
    times: u32,
    ours: fn(u32) -> u64,
    reference: fn(u32) -> u64,
}

const WORKS: [Work; 8] = [
    Work {
        name: "pack",
        unit: "words",
        times: 20_000_000,
        ours: pack_ours,
        reference: pack_reference,
    },
    Work {
        name: "read",
        unit: "words",
        times: 20_000_000,
        ours: read_ours,
        reference: read_reference,
    },
    Work {
        name: "read-damaged",
        unit: "words",
        times: 20_000_000,
        ours: damaged_ours,
        reference: damaged_reference,
    },
    Work {
        name: "rounds-1",
        unit: "rounds",
        times: 5_000_000,
        ours: rounds_1_ours,
        reference: rounds_1_reference,
    },
    Work {
        name: "rounds-2",
        unit: "rounds",
        times: 2_000_000,
        ours: rounds_2_ours,
        reference: rounds_2_reference,
    },
    Work {
        name: "report-1",
        unit: "reports",
        times: 5_000,
        ours: report_1_ours,
        reference: report_1_reference,
    },
    Work {
        name: "report-2",
        unit: "reports",
        times: 5_000,
        ours: report_2_ours,
        reference: report_2_reference,
    },
    Work {
        name: "report-faults",
        unit: "reports",
        times: 5_000,
        ours: faults_ours,
        reference: faults_reference,
    },
];

fn label(i: u32) -> u8 {
    i as u8
}

fn payload(i: u32) -> u64 {
    0x2_0000_0000 | u64::from(i)
}

// The library's words go through a call over pointers that cannot be inlined. So that the words are compared and not the calls, the
// reference's go through one of the same form.
unsafe extern "C" {
    fn gelmuska_word_pack(parts: *const Parts, word: *mut u64) -> u32;
    fn gelmuska_word_read(word: u64, parts: *mut Parts) -> u32;
}

type Pack = unsafe extern "C" fn(*const Parts, *mut u64) -> u32;
type Read = unsafe extern "C" fn(u64, *mut Parts) -> u32;

#[inline(never)]
unsafe extern "C" fn reference_word_pack(parts: *const Parts, word: *mut u64) -> u32 {
    // the benchmark passes references
    let (parts, word) = unsafe { (&*parts, &mut *word) };
    if parts.kind > 15 || parts.payload >> 36 != 0 {
        return 11;
    }
    *word = words::Word {
        label: parts.label,
        kind: parts.kind,
        payload: parts.payload,
    }
    .pack();
    0
}

#[inline(never)]
unsafe extern "C" fn reference_word_read(word: u64, parts: *mut Parts) -> u32 {
    match words::Word::read(word) {
        Some(found) => {
            unsafe {
                *parts = Parts {
                    label: found.label,
                    kind: found.kind,
                    payload: found.payload,
                }
            };
            0
        }
        None => 8,
    }
}

fn pack_all(pack: Pack, times: u32) -> u64 {
    let pack = black_box(pack);
    let mut sum = 0u64;
    for i in 0..times {
        let parts = Parts {
            label: label(i),
            kind: 1,
            payload: payload(i),
        };
        let mut word = 0;
        sum = sum.wrapping_add(u64::from(unsafe { pack(&parts, &mut word) }));
        sum = sum.wrapping_add(word);
    }
    sum
}

fn pack_ours(times: u32) -> u64 {
    pack_all(gelmuska_word_pack, times)
}

fn pack_reference(times: u32) -> u64 {
    pack_all(reference_word_pack, times)
}

/// Whole words, one after another, or the same with a changed bit.
fn table(damage: u64) -> Vec<u64> {
    let whole = |i| {
        words::Word {
            label: label(i),
            kind: 1,
            payload: payload(i % 64),
        }
        .pack()
    };
    (0..256).map(|i| whole(i) ^ damage).collect()
}

fn read_all(read: Read, times: u32, damage: u64) -> u64 {
    let read = black_box(read);
    let table = table(damage);
    let mut sum = 0u64;
    let mut parts = Parts::default();
    for i in 0..times {
        sum = sum.wrapping_add(u64::from(unsafe {
            read(table[i as usize % 256], &mut parts)
        }));
        sum = sum.wrapping_add(parts.payload ^ u64::from(parts.label));
    }
    sum
}

fn read_ours(times: u32) -> u64 {
    read_all(gelmuska_word_read, times, 0)
}

fn read_reference(times: u32) -> u64 {
    read_all(reference_word_read, times, 0)
}

fn damaged_ours(times: u32) -> u64 {
    read_all(gelmuska_word_read, times, 1 << 20)
}

fn damaged_reference(times: u32) -> u64 {
    read_all(reference_word_read, times, 1 << 20)
}

/// An offer of the command to stop and a round, so many times. Nearly each completes an exchange, so that clean is asked.
fn rounds_ours(setup: u8, labels: u16, times: u32) -> u64 {
    let observer = gelmuska::rounds(setup, labels, times).expect("the check takes these labels");
    u64::from(observer.completed) << 16 | u64::from(observer.first)
}

fn rounds_reference<F: Channel, B: Channel>(mut link: Link<F, B, Commands>, times: u32) -> u64 {
    for _ in 0..times {
        let _ = link.offer(Command::Stop);
        black_box(link.round());
    }
    let observer = link.observer();
    u64::from(observer.completed) << 16 | u64::from(observer.first_clean)
}

fn rounds_1_ours(times: u32) -> u64 {
    rounds_ours(1, 4, times)
}

fn rounds_1_reference(times: u32) -> u64 {
    rounds_reference(setups::first::<Commands>(4), times)
}

fn rounds_2_ours(times: u32) -> u64 {
    rounds_ours(2, 10, times)
}

fn rounds_2_reference(times: u32) -> u64 {
    rounds_reference(setups::second::<Commands>(10), times)
}

/// A script of 4,096 bytes at most: the first line, then these lines over and over.
fn script(first: &str, lines: &str) -> Vec<u8> {
    let mut script = first.as_bytes().to_vec();
    while script.len() + lines.len() <= 4096 {
        script.extend_from_slice(lines.as_bytes());
    }
    script
}

fn reports_ours(times: u32, script: &[u8]) -> u64 {
    let mut page = vec![0; 50_000];
    let mut sum = 0u64;
    for _ in 0..times {
        let length =
            gelmuska::report_into(black_box(script), &mut page).expect("it is short enough");
        sum = sum.wrapping_add(length as u64 + u64::from(page[length - 2]));
    }
    sum
}

fn reports_reference(times: u32, script: &[u8]) -> u64 {
    let mut page = vec![0; 50_000];
    let mut sum = 0u64;
    for _ in 0..times {
        let length = report::report_into(black_box(script), &mut page).expect("it is short enough");
        sum = sum.wrapping_add(length as u64 + u64::from(page[length - 2]));
    }
    sum
}

const ROUNDS: &str = "o 200000032\nr\nr\n";
const FAULTS: &str = "B 0300000000005CD3\nS 02\no 300000002\na\nh\ns\nF 0123456789ABCDEF\nr\nbad\n";

fn report_1_ours(times: u32) -> u64 {
    reports_ours(times, &script("P 1 C 04\n", ROUNDS))
}

fn report_1_reference(times: u32) -> u64 {
    reports_reference(times, &script("P 1 C 04\n", ROUNDS))
}

fn report_2_ours(times: u32) -> u64 {
    reports_ours(times, &script("P 2 C 0A\n", ROUNDS))
}

fn report_2_reference(times: u32) -> u64 {
    reports_reference(times, &script("P 2 C 0A\n", ROUNDS))
}

fn faults_ours(times: u32) -> u64 {
    reports_ours(times, &script("P 1 C 04\n", FAULTS))
}

fn faults_reference(times: u32) -> u64 {
    reports_reference(times, &script("P 1 C 04\n", FAULTS))
}

/// How many a second, by the best of five runs.
fn rate(run: fn(u32) -> u64, times: u32) -> (f64, u64) {
    let mut best = f64::INFINITY;
    let mut answer = 0;
    for _ in 0..5 {
        let start = Instant::now();
        answer = run(times);
        best = best.min(start.elapsed().as_secs_f64());
    }
    (f64::from(times) / best, answer)
}

fn print_table() {
    println!(
        "{:<14} {:>14} {:>14}   {}",
        "work", "ours", "reference", "ours / reference"
    );
    for work in &WORKS {
        let (ours, a) = rate(work.ours, work.times);
        let (reference, b) = rate(work.reference, work.times);
        assert_eq!(a, b, "the two sides disagree on {}", work.name);
        println!(
            "{:<14} {:>14.0} {:>14.0}   {:>6.2}   {} a second",
            work.name,
            ours,
            reference,
            ours / reference,
            work.unit
        );
    }
}

fn main() {
    let args: Vec<String> = env::args().skip(1).collect();
    match args.as_slice() {
        [] => print_table(),
        [name, side, times] => {
            let work = WORKS.iter().find(|work| work.name == name);
            let (Some(work), Ok(times)) = (work, times.parse()) else {
                eprintln!("benchmarks: no such work: {name} {times}");
                exit(2);
            };
            let run = if side == "ours" {
                work.ours
            } else {
                work.reference
            };
            black_box(run(times));
        }
        _ => {
            eprintln!("usage: benchmarks [WORK ours|reference N]");
            exit(2);
        }
    }
}
