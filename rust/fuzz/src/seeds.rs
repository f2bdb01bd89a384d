//! Inputs to begin with: 01's cases, the examples, the fixed shapes and random scenarios.

use std::fs;
use std::io::Result;
use std::path::Path;

use differential::random::Random;
use differential::scenario::{Scenario, Which, taken};
use differential::shapes;
use reference::cases::{self, Call, Input};

use crate::trial::{Trial, written};

const EXAMPLES: &str = concat!(env!("CARGO_MANIFEST_DIR"), "/../../examples");
const SEED: u64 = 1_499;

/// Writes each seed into a file of `folder`.
pub fn write(folder: &Path) -> Result<()> {
    let mut seeds = Vec::new();
    for case in cases::all() {
        case.demand(|call, input, out| {
            seeds.push(seed(call, input));
            call.answer(input, out)
        });
    }
    examples(&mut seeds)?;
    let random = &mut Random::new(SEED);
    let shapes = shapes::all(random);
    let mut scenarios: Vec<_> = shapes.into_iter().map(|it| Scenario::of(random, it)).collect();
    scenarios.extend((1..=64).map(|count| Scenario::random(random, count)));
    for scenario in scenarios {
        let files = scenario.files();
        seeds.extend(Call::ALL.map(|call| seed(call, &files.input())));
    }
    for (index, seed) in seeds.iter().enumerate() {
        fs::write(folder.join(index.to_string()), seed)?;
    }
    Ok(())
}

/// Each pass of each example, for each call, with the reconciled instance where one is taken.
fn examples(seeds: &mut Vec<Vec<u8>>) -> Result<()> {
    for example in fs::read_dir(EXAMPLES)? {
        let example = example?.path();
        if !example.join("expected").exists() {
            continue;
        }
        let [schema, policies, passes] =
            ["schema.hex", "policies.hex", "passes.hex"].map(|name| bytes(&example.join(name)));
        let (schema, policies) = (&schema?[..], &policies?[..]);
        for record in passes?.chunks_exact(6) {
            let day = |place| u16::from_be_bytes([record[place], record[place + 1]]);
            let input = Input { schema, policies, pass: (day(2), day(4)), ..Input::default() };
            let instance = &written(Call::Reconcile, &input)[..];
            let input = Input { first: instance, second: instance, ..input };
            seeds.extend(Call::ALL.map(|call| seed(call, &input)));
        }
    }
    Ok(())
}

/// The bytes of a hex text in which '#' starts a comment.
fn bytes(path: &Path) -> Result<Vec<u8>> {
    let text = fs::read_to_string(path)?;
    let digits = text.lines().map(|line| line.split('#').next().unwrap_or_default());
    Ok(cases::hex(&digits.collect::<String>()))
}

/// `call` on those files of `input` that it takes, with a buffer that is just enough.
pub fn seed(call: Call, input: &Input) -> Vec<u8> {
    let file =
        |which, file: &[u8]| if taken(call).contains(&which) { file.to_vec() } else { vec![] };
    let files = [
        file(Which::Schema, input.schema),
        file(Which::Policies, input.policies),
        file(Which::First, input.first),
        file(Which::Second, input.second),
    ];
    Trial { call, buffer: 0, fill: 0, pass: input.pass, files }.bytes()
}
