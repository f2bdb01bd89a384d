//! The inputs are what they are meant to be, as the reference sees them.

use differential::model::{Entry, Value, policy_file, schema_file};
use differential::mutate;
use differential::random::Random;
use differential::scenario::{Scenario, Which, taken};
use differential::shapes;
use reference::cases::{Call, Input, POLICIES, SCHEMA, hex};

fn number(call: Call, input: &Input) -> u32 {
    call.answer(input, &mut vec![0; call.longest()]).number
}

#[test]
fn the_numbers_are_those_of_splitmix64() {
    let mut random = Random::new(0);
    assert_eq!(random.number(), 0xe220_a839_7b1d_cdaf);
    assert_eq!(random.number(), 0x6e78_9e6a_a1b9_65f4);
}

#[test]
fn random_files_are_good() {
    let random = &mut Random::new(1);
    let (mut reconciled, mut accepted) = (0, 0);
    for round in 0..640 {
        let files = Scenario::random(random, round % 64 + 1).files();
        let input = Input { pass: (20_000, 20_001), ..files.input() };
        assert!(matches!(number(Call::Reconcile, &input), 0 | 13));
        assert!(matches!(number(Call::Check, &input), 0 | 18));
        assert_eq!(number(Call::Compare, &input), 0);
        reconciled += usize::from(number(Call::Reconcile, &input) == 0);
        accepted += usize::from(number(Call::Check, &input) == 0);
    }
    assert!(reconciled > 200 && accepted > 100, "{reconciled} reconciled, {accepted} accepted");
}

#[test]
fn the_worked_example_is_that_of_01() {
    let shape = shapes::worked_example();
    assert_eq!(schema_file(&shape.schema).bytes, hex(SCHEMA));
    assert_eq!(policy_file(&shape.policies).bytes, hex(POLICIES));
}

#[test]
fn shapes_have_an_instance() {
    let random = &mut Random::new(2);
    for shape in shapes::all(random) {
        let scenario = Scenario::of(random, shape);
        assert_eq!(number(Call::Reconcile, &scenario.files().input()), 0);
    }
    let largest = shapes::largest(random);
    assert_eq!(policy_file(&largest.policies).bytes.len(), 43_568);
}

#[test]
fn instances_have_what_sheets_show() {
    let random = &mut Random::new(5);
    let instances: Vec<_> =
        (0..640).map(|round| Scenario::random(random, round % 64 + 1).first).collect();
    let count = |shown: &dyn Fn(&Entry) -> bool| {
        instances.iter().flatten().filter(|entry| shown(entry)).count()
    };
    for value in [i32::MIN, i32::MAX, -1, 0, 1] {
        let values = count(&|entry| entry.values.contains(&Value::Number(value)));
        assert!(values > 20, "{value}: {values}");
    }
    for variables in 0..=4 {
        assert!(count(&|entry| entry.values.len() == variables) > 500, "{variables} variables");
    }
    let last = count(&|entry| entry.node == 63);
    let choices = [count(&|entry| entry.choice < 10), count(&|entry| entry.choice == 255)];
    let all_reached = instances.iter().filter(|entries| entries.len() == 64).count();
    assert!(last > 4 && choices[0] > 500 && choices[1] > 500, "{last}, {choices:?}");
    assert!(all_reached > 1, "{all_reached}");

    let longest = shapes::longest(random);
    let longest = Scenario::of(random, longest).files();
    assert_eq!(longest.first.bytes.len(), Call::Copy.longest());
    let answer = Call::Sheet.answer(&longest.input(), &mut [0; 3_520]);
    assert_eq!(answer.value as usize, Call::Sheet.longest());
}

#[test]
fn a_policy_made_to_forbid_a_field_forbids_it() {
    let random = &mut Random::new(3);
    let mut forbidden = 0;
    for round in 0..640 {
        let mut scenario = Scenario::random(random, round % 64 + 1);
        if scenario.policies.is_empty() {
            continue;
        }
        let last = scenario.policies.len() - 1;
        scenario.policies[last].first = 0;
        scenario.policies[last].last = u16::MAX;
        scenario.policies = scenario.forbidding(random, last);
        let files = scenario.files();
        let input = Input { pass: (20_000, 20_000), ..files.input() };
        forbidden += usize::from(number(Call::Check, &input) == 18);
    }
    assert!(forbidden > 400, "{forbidden} forbidden");
}

#[test]
fn spoiled_files_are_of_every_sort() {
    let random = &mut Random::new(4);
    let files = Scenario::of(random, shapes::worked_example()).files();
    for which in taken(Call::Compare) {
        let file = files.file(*which);
        let (mut cut, mut longer, mut changed) = (0, 0, 0);
        mutate::variants(random, file, 1_000, &mut |bytes| {
            cut += usize::from(bytes.len() < file.bytes.len());
            longer += usize::from(bytes.len() > file.bytes.len());
            changed += usize::from(bytes.len() == file.bytes.len() && bytes != file.bytes);
        });
        assert!(cut >= file.bytes.len(), "{which:?}");
        assert!(longer > 20 && changed > 200, "{which:?}: {longer} longer, {changed} changed");
    }
    assert_eq!(taken(Call::Reconcile), [Which::Schema, Which::Policies]);
}
