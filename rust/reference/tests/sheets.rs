//! Reads sheets back: with the schema each line gives its entry, and a sheet its instance.

use differential::model::{Entry, Node, Value, Variable, instance_file, schema_file};
use differential::random::Random;
use differential::scenario::Scenario;
use differential::shapes;
use reference::sheet;

/// The entry that a line, without its line feed, shows of an instance of `schema`.
fn entry(schema: &[Node], line: &str) -> Entry {
    assert_eq!(line.len(), 54, "{line:?}");
    let column = |blank: usize, end: usize| {
        assert_eq!(&line[blank..=blank], " ", "{line:?}");
        line[blank + 1..end].trim_start_matches(' ')
    };
    let node: u8 = line[..2].trim_start_matches(' ').parse().expect("a node");
    let choice = match column(2, 6) {
        "---" => 255,
        choice => choice.parse().expect("a choice"),
    };
    let values = [column(6, 18), column(18, 30), column(30, 42), column(42, 54)];
    let variables = &schema[usize::from(node)].variables;
    assert_eq!(values[variables.len()..].concat(), "", "{line:?}");
    let values = variables.iter().zip(values).map(|(variable, value)| match variable {
        Variable::Number(..) => Value::Number(value.parse().expect("a number")),
        Variable::Listed(_) => Value::Listed(value.parse().expect("a listed value")),
    });
    Entry { node, choice, values: values.collect() }
}

/// The line of an entry by the standard library's formats.
fn formatted(entry: &Entry) -> String {
    let choice = if entry.choice == 255 { "---".to_string() } else { entry.choice.to_string() };
    let mut line = format!("{:>2} {choice:>3}", entry.node);
    for value in &entry.values {
        line += &match value {
            Value::Number(value) => format!(" {value:>11}"),
            Value::Listed(value) => format!(" {value:>11}"),
        };
    }
    format!("{line:<54}\n")
}

/// Demands that the sheet of an instance has a line for each entry, which reads back to it.
fn demand_read_back(schema: &[Node], entries: &[Entry]) {
    let file = instance_file(entries).bytes;
    let mut out = [0; 3_520];
    let answer = sheet(&schema_file(schema).bytes, &file, &mut out);
    assert_eq!((answer.number, answer.value), (0, 55 * entries.len() as u64));
    let text = std::str::from_utf8(&out[..55 * entries.len()]).expect("a sheet is ASCII");
    assert_eq!(text, entries.iter().map(formatted).collect::<String>());
    let read: Vec<Entry> = text.split_terminator('\n').map(|line| entry(schema, line)).collect();
    assert_eq!(read, entries);
    assert_eq!(instance_file(&read).bytes, file);
}

#[test]
fn a_sheet_reads_back_to_its_instance() {
    let random = &mut Random::new(55);
    let shapes = shapes::all(random);
    let mut scenarios: Vec<_> = shapes.into_iter().map(|it| Scenario::of(random, it)).collect();
    scenarios.extend((0..6_400).map(|round| Scenario::random(random, round % 64 + 1)));
    for scenario in scenarios {
        demand_read_back(&scenario.schema, &scenario.first);
        demand_read_back(&scenario.schema, &scenario.second);
    }
}

#[test]
fn values_of_all_lengths_read_back() {
    let variables = vec![Variable::Number(i32::MIN, i32::MAX); 4];
    let schema = [Node { kind: 1, successors: vec![], variables }];
    let powers = (0..10).map(|digits| 10_i32.pow(digits)).chain([i32::MAX]);
    for value in powers.flat_map(|power| [power, power - 1]) {
        let values = [value, -value, !value, value / 2].map(Value::Number).to_vec();
        demand_read_back(&schema, &[Entry { node: 0, choice: 255, values }]);
    }
}
