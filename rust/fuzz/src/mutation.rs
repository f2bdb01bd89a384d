//! Inputs made from inputs: mostly one part changes and the others stay.

use differential::generate;
use differential::model::{Node, Variable, instance_file, policy_file};
use differential::random::Random;
use differential::scenario::{Scenario, Which, taken};
use reference::cases::{Call, Input};

use crate::seeds;
use crate::trial::{HEAD, Trial, written};

/// The most bytes that a file grows by.
const GROWTH: usize = 256;

unsafe extern "C" {
    fn LLVMFuzzerMutate(data: *mut u8, size: usize, most: usize) -> usize;
}

/// A mutant of `bytes`; what exceeds `most` bytes is to be cut.
pub fn mutant(bytes: &[u8], most: usize, seed: u32) -> Vec<u8> {
    let random = &mut Random::new(seed.into());
    let mut trial = Trial::read(bytes);
    let which = random.pick(taken(trial.call));
    match random.below(100) {
        0 => {
            let count = 1 + random.below(64);
            return seeds::seed(trial.call, &Scenario::random(random, count).files().input());
        }
        1..5 => {
            let mut bytes = trial.bytes();
            bytes[random.below(HEAD)] = random.byte();
            return bytes;
        }
        5..10 => trial.call = random.pick(&Call::ALL),
        10..15 => {
            let a = trial.pass.0.wrapping_add(random.within(-1..=1) as u16);
            trial.pass = (a, a.wrapping_add(random.below(2) as u16));
        }
        15..20 => trial.files[2] = written(Call::Reconcile, &trial.input()),
        20..25 => trial.files[3] = written(Call::Reconcile, &trial.input()),
        25..30 => trial.files[3] = trial.files[2].clone(),
        30..40 => refit(random, &mut trial, which),
        _ => mutate(&mut trial.files[which as usize], most.saturating_sub(bytes.len())),
    }
    trial.bytes()
}

/// Puts random policies or a random instance of the trial's schema, if it is one, in the place of
/// those that the trial has.
fn refit(random: &mut Random, trial: &mut Trial, which: Which) {
    let Some(schema) = nodes(&trial.files[0]) else { return };
    let file = match which {
        Which::Schema => return,
        Which::Policies => {
            trial.pass = generate::pass(random);
            let count = random.below(17);
            policy_file(&generate::policies(random, &schema, count))
        }
        Which::First | Which::Second => {
            let choices = generate::choices(random, &schema);
            instance_file(&generate::instance(random, &schema, &choices))
        }
    };
    trial.files[which as usize] = file.bytes;
}

/// The nodes of a schema in which the reference finds no breach.
fn nodes(schema: &[u8]) -> Option<Vec<Node>> {
    let input = Input { schema, ..Input::default() };
    if Call::Reconcile.answer(&input, &mut []).file == 1 {
        return None;
    }
    let mut rest = &schema[3..];
    let mut take = |count: u8| {
        let (taken, after) = rest.split_at(count.into());
        rest = after;
        taken
    };
    let mut node = || {
        let head = take(4);
        let successors = take(head[3]).to_vec();
        let count = take(1)[0];
        let number = |bytes: &[u8]| i32::from_be_bytes(bytes.try_into().expect("four bytes"));
        let variables = (0..count).map(|_| match take(1)[0] {
            0 => Variable::Number(number(take(4)), number(take(4))),
            _ => Variable::Listed(take(1)[0]),
        });
        Node { kind: head[2], variables: variables.collect(), successors }
    };
    Some((0..schema[2]).map(|_| node()).collect())
}

/// Has libFuzzer change `file`, which may grow by `room` bytes.
fn mutate(file: &mut Vec<u8>, room: usize) {
    let length = file.len();
    file.resize(length + room.min(GROWTH), 0);
    if !file.is_empty() {
        // SAFETY: all bytes of `file` may be written, and `length` is at most their number.
        let length = unsafe { LLVMFuzzerMutate(file.as_mut_ptr(), length, file.len()) };
        file.truncate(length);
    }
}
