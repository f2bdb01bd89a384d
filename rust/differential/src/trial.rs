//! Both programs on the same inputs.

use std::collections::BTreeMap;

use reference::Answer;
use reference::cases::{Call, Input};

use crate::library;
use crate::model::policy_file;
use crate::mutate;
use crate::random::Random;
use crate::scenario::{Files, Scenario, Which, taken};
use crate::shapes;

/// Compares the library with the reference and counts.
#[derive(Debug)]
pub struct Trial {
    seed: u64,
    random: Random,
    comparisons: u64,
    answers: BTreeMap<(Call, u32, u64), u64>,
}

impl Trial {
    /// A trial whose inputs `seed` fixes.
    pub fn new(seed: u64) -> Self {
        Trial { seed, random: Random::new(seed), comparisons: 0, answers: BTreeMap::new() }
    }

    /// How often both programs were run and compared.
    pub fn comparisons(&self) -> u64 {
        self.comparisons
    }

    /// How often `call` gave `number`.
    pub fn given(&self, call: Call, number: u32) -> u64 {
        let all = (call, number, 0)..=(call, number, u64::MAX);
        self.answers.range(all).map(|(_, count)| count).sum()
    }

    /// How often the comparison gave `verdict`.
    pub fn judged(&self, verdict: u64) -> u64 {
        self.answers.get(&(Call::Compare, 0, verdict)).copied().unwrap_or(0)
    }

    /// `call` on a random scenario of `count` nodes, on related ones and on spoiled files.
    pub fn round(&mut self, call: Call, count: usize) {
        let scenario = Scenario::random(&mut self.random, count);
        let files = scenario.files();
        self.compare(call, &files.input());
        if taken(call).contains(&Which::Policies) {
            self.forbidden(call, &scenario, &files);
        }
        self.spoiled(call, &files, 160);
    }

    /// `call` on 01's worked example with each byte replaced by each other, and on chains,
    /// ladders, the largest input and the longest instance, each of them whole, cut at every byte
    /// and spoiled.
    pub fn shapes(&mut self, call: Call) {
        let worked = Scenario::of(&mut self.random, shapes::worked_example()).files();
        for which in taken(call) {
            mutate::every_byte(&worked.file(*which).bytes, &mut |bytes| {
                self.compare(call, &worked.with(*which, bytes));
            });
        }
        for shape in shapes::all(&mut self.random) {
            let scenario = Scenario::of(&mut self.random, shape);
            let files = scenario.files();
            self.compare(call, &files.input());
            self.truncated(call, &files);
            self.spoiled(call, &files, 400);
        }
    }

    fn truncated(&mut self, call: Call, files: &Files) {
        for which in taken(call) {
            let bytes = &files.file(*which).bytes;
            let random = &mut self.random.clone();
            mutate::truncated(random, bytes, bytes.len(), &mut |bytes| {
                self.same(call, &files.with(*which, bytes), call.longest());
            });
        }
    }

    fn spoiled(&mut self, call: Call, files: &Files, budget: usize) {
        for which in taken(call) {
            let random = &mut Random::new(self.random.number());
            mutate::variants(random, files.file(*which), budget, &mut |bytes| {
                self.compare(call, &files.with(*which, bytes));
            });
        }
    }

    /// Each policy in turn made to forbid a field of the first instance.
    fn forbidden(&mut self, call: Call, scenario: &Scenario, files: &Files) {
        for policy in 0..scenario.policies.len() {
            let policies = policy_file(&scenario.forbidding(&mut self.random, policy));
            self.compare(call, &files.with(Which::Policies, &policies.bytes));
        }
    }

    /// Compares with a buffer that is enough and, after success, with buffers of exactly the
    /// length, one less, none and more than enough; after a refusal with one of the last two.
    pub fn compare(&mut self, call: Call, input: &Input) {
        let longest = call.longest();
        let answer = self.same(call, input, longest);
        if longest == 0 {
            return;
        }
        let longer = longest + 1 + self.random.below(700);
        if answer.number != 0 {
            let length = self.random.pick(&[0, longer]);
            self.same(call, input, length);
            return;
        }
        let exact = answer.value as usize;
        for length in [exact, exact - 1, 0, longer] {
            self.same(call, input, length);
        }
    }

    /// Runs both on buffers of `length` bytes that hold the same, and demands the same answer
    /// and the same whole buffer.
    fn same(&mut self, call: Call, input: &Input, length: usize) -> Answer {
        let fill = self.random.byte();
        let mut expected: Vec<u8> = (0..length).map(|index| index as u8 ^ fill).collect();
        let mut out = expected.clone();
        let answer = call.answer(input, &mut expected);
        let ours = library::answer(call, input, &mut out);
        if ours != answer || out != expected {
            self.report(call, input, length, [answer, ours], [&expected, &out]);
        }
        self.comparisons += 1;
        *self.answers.entry((call, answer.number, answer.value)).or_default() += 1;
        answer
    }

    #[cold]
    fn report(
        &self,
        call: Call,
        input: &Input,
        length: usize,
        answers: [Answer; 2],
        [expected, out]: [&[u8]; 2],
    ) -> ! {
        let differing = out.iter().zip(expected).position(|(ours, theirs)| ours != theirs);
        panic!(
            "{call:?} differs, seed {}, comparison {}, buffer of {length} bytes\n\
             reference {:?}\nlibrary   {:?}\nfirst differing byte of the buffer: {differing:?}\n\
             pass {:?}\nschema {}\npolicies {}\nfirst {}\nsecond {}",
            self.seed,
            self.comparisons,
            answers[0],
            answers[1],
            input.pass,
            digits(input.schema),
            digits(input.policies),
            digits(input.first),
            digits(input.second),
        )
    }
}

fn digits(bytes: &[u8]) -> String {
    bytes.iter().map(|byte| format!("{byte:02x}")).collect()
}
