//! Passes a second through the whole program: passplan, and this one as the reference's.

use std::env;
use std::fs::{self, File};
use std::io::{self, Read, Write};
use std::path::Path;
use std::process::{Command, Stdio};
use std::time::Instant;

use crate::inputs::Input;

const PASSPLAN: &str = concat!(env!("CARGO_MANIFEST_DIR"), "/../../target/bin/passplan");
/// The argument with which this program does what passplan does.
pub const AS_PASSPLAN: &str = "passplan";
const ROUNDS: usize = 9;

/// What passplan does, by the reference.
pub fn as_passplan() {
    let [schema, policies] =
        ["schema.bin", "policies.bin"].map(|name| fs::read(name).unwrap_or_default());
    let mut input = Vec::new();
    io::stdin().read_to_end(&mut input).expect("the input is read");
    let printed = reference::passplan(&schema, &policies, &input);
    io::stdout().write_all(&printed).expect("the lines are written");
}

/// Prints the passes a second of both for `count` records of one input, and the ratio of the times.
pub fn compare(name: &str, input: &Input, count: usize) {
    let folder = env::temp_dir().join(format!("neulenta-bench-{}", std::process::id()));
    fs::create_dir(&folder).expect("a new folder");
    let [a, b] = [input.pass.0, input.pass.1].map(u16::to_be_bytes);
    let record = [b"PS", &a[..], &b[..]].concat();
    for (name, bytes) in [
        ("schema.bin", &input.schema),
        ("policies.bin", &input.policies),
        ("input", &record.repeat(count)),
    ] {
        fs::write(folder.join(name), bytes).expect("a file is written");
    }
    let mut ratios = Vec::new();
    let mut least = [f64::MAX; 2];
    for _ in 0..ROUNDS {
        let this = env::current_exe().expect("this program");
        let ours = seconds(Command::new(PASSPLAN), &folder, "ours");
        let mut theirs = Command::new(this);
        theirs.arg(AS_PASSPLAN);
        let theirs = seconds(theirs, &folder, "theirs");
        least = [least[0].min(ours), least[1].min(theirs)];
        ratios.push(ours / theirs);
    }
    let [ours, theirs] = ["ours", "theirs"].map(|name| fs::read(folder.join(name)).expect("lines"));
    assert!(ours == theirs, "{name}");
    fs::remove_dir_all(&folder).expect("the folder is removed");
    ratios.sort_by(f64::total_cmp);
    let [ours, theirs] = least.map(|seconds| count as f64 / seconds);
    println!("{name:<42} {count:>7} {ours:>15.0} {theirs:>15.0} {:>6.2}", ratios[ROUNDS / 2]);
}

fn seconds(mut program: Command, folder: &Path, printed: &str) -> f64 {
    let input = File::open(folder.join("input")).expect("the input");
    let printed = File::create(folder.join(printed)).expect("a file for the lines");
    program.current_dir(folder).stdin(Stdio::from(input)).stdout(Stdio::from(printed));
    let start = Instant::now();
    let status = program.status().expect("passplan is built: tools/build passplan");
    assert!(status.success());
    start.elapsed().as_secs_f64()
}
