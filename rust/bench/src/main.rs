//! Times `reconcile` and `sheet` of the static library and of the reference, alternating in one run,
//! and prints the time of a call in each and the ratio of the two; then the same of the whole program.

mod inputs;
mod program;

use std::hint::black_box;
use std::time::{Duration, Instant};

use differential::random::Random;
use inputs::{Group, Input};
use neulenta::LONGEST_SHEET;

/// Rounds of one batch each of both programs.
const ROUNDS: usize = 501;
/// About how long a batch takes; short, so that a busy machine slows both programs alike.
const BATCH: Duration = Duration::from_micros(200);

/// A call of a program: number and length.
trait Call: Fn(&Input, &mut [u8]) -> (u32, u64) + Copy {}

impl<F: Fn(&Input, &mut [u8]) -> (u32, u64) + Copy> Call for F {}

fn library(input: &Input, out: &mut [u8]) -> (u32, u64) {
    let (a, b) = input.pass;
    let answer = neulenta::raw::reconcile(&input.schema, &input.policies, a, b, out);
    (answer.number, answer.value)
}

fn reference(input: &Input, out: &mut [u8]) -> (u32, u64) {
    let (a, b) = input.pass;
    let answer = reference::reconcile(&input.schema, &input.policies, a, b, out);
    (answer.number, answer.value)
}

fn library_sheet(input: &Input, out: &mut [u8]) -> (u32, u64) {
    let answer = neulenta::raw::sheet(&input.schema, &input.instance, out);
    (answer.number, answer.value)
}

fn reference_sheet(input: &Input, out: &mut [u8]) -> (u32, u64) {
    let answer = reference::sheet(&input.schema, &input.instance, out);
    (answer.number, answer.value)
}

fn main() {
    if std::env::args().nth(1).as_deref() == Some(program::AS_PASSPLAN) {
        return program::as_passplan();
    }
    let random = &mut Random::new(1_499);
    let groups = inputs::groups(random);
    let instances = inputs::instances(random);
    compare("input", &groups, library, reference);
    compare("sheet of", &instances, library_sheet, reference_sheet);
    println!("ns for each call: median (least) of {ROUNDS} rounds; ratio: median of ours / theirs");
    heading("program on", "passes");
    for (group, count) in [(&groups[0], 200_000), (&groups[2], 5_000)] {
        program::compare(&group.name, &group.inputs[0], count);
    }
    println!("passes a second, in the fastest run; ratio: median of the times of ours / theirs");
}

fn heading(input: &str, size: &str) {
    println!("{input:<42} {size:>7} {:>15} {:>15} {:>6}", "ours", "theirs", "ratio");
}

/// Prints the times of a call on each group.
fn compare(input: &str, groups: &[Group], library: impl Call, reference: impl Call) {
    heading(input, "bytes");
    for group in groups {
        demand_same(group, library, reference);
        let [ours, theirs, ratio] = measure(&group.inputs, library, reference);
        let [ours, theirs] = [ours, theirs].map(|ns| format!("{:.0} ({:.0})", ns.median, ns.least));
        let bytes = group.inputs.iter().map(Input::bytes).sum::<usize>() / group.inputs.len();
        println!("{:<42} {bytes:>7} {ours:>15} {theirs:>15} {:>6.2}", group.name, ratio.median);
    }
}

/// Only equal work is compared: both write, and the same.
fn demand_same(group: &Group, library: impl Call, reference: impl Call) {
    for input in &group.inputs {
        let [mut out, mut expected] = [[0; LONGEST_SHEET]; 2];
        let answers = [library(input, &mut out), reference(input, &mut expected)];
        assert_eq!(answers[0], answers[1], "{}", group.name);
        assert_eq!(answers[0].0, 0, "{}", group.name);
        assert_eq!(out, expected, "{}", group.name);
    }
}

/// What the rounds gave.
struct Figure {
    median: f64,
    least: f64,
}

/// The times of a call of the library and of the reference, and their ratio.
fn measure(inputs: &[Input], library: impl Call, reference: impl Call) -> [Figure; 3] {
    let once = time(reference, inputs, 1) * inputs.len() as f64;
    let times = (BATCH.as_nanos() as f64 / once).ceil() as usize;
    let mut rounds = [(); 3].map(|()| Vec::new());
    for round in 0..ROUNDS {
        let [ours, theirs] = if round % 2 == 0 {
            let ours = time(library, inputs, times);
            [ours, time(reference, inputs, times)]
        } else {
            let theirs = time(reference, inputs, times);
            [time(library, inputs, times), theirs]
        };
        for (rounds, round) in rounds.iter_mut().zip([ours, theirs, ours / theirs]) {
            rounds.push(round);
        }
    }
    rounds.map(figure)
}

/// The nanoseconds of a call when all inputs are taken in turn `times` times.
fn time(call: impl Call, inputs: &[Input], times: usize) -> f64 {
    let mut out = [0; LONGEST_SHEET];
    let start = Instant::now();
    for _ in 0..times {
        for input in inputs {
            black_box(call(black_box(input), &mut out));
        }
    }
    start.elapsed().as_nanos() as f64 / (times * inputs.len()) as f64
}

fn figure(mut rounds: Vec<f64>) -> Figure {
    rounds.sort_by(f64::total_cmp);
    Figure { median: rounds[rounds.len() / 2], least: rounds[0] }
}
