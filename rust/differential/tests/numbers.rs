//! The examples in docs/NUMBERS.md: what a change of the worked example gives, in both programs.

use std::collections::BTreeMap;

use differential::library::answer;
use reference::Answer;
use reference::cases::{Call, Input, LINE_ONE, POLICIES, SCHEMA, hex};

const PAGE: &str = include_str!(concat!(env!("CARGO_MANIFEST_DIR"), "/../../docs/NUMBERS.md"));

/// Files 1, 2 and 4, a pass, a call and the length of its buffer.
struct Example {
    files: [Vec<u8>; 3],
    pass: (u16, u16),
    call: Call,
    room: usize,
}

impl Example {
    /// The worked example on day 100.
    fn of(call: Call) -> Self {
        let files = [SCHEMA, POLICIES, LINE_ONE].map(hex);
        Example { files, pass: (100, 100), call, room: neulenta::LONGEST }
    }

    /// With the `cut` bytes at `offset` of the file at `index` replaced by `bytes`.
    fn with(mut self, index: usize, offset: usize, cut: usize, bytes: &str) -> Self {
        self.files[index].splice(offset..offset + cut, hex(bytes));
        self
    }

    /// With another file at `index`.
    fn having(mut self, index: usize, bytes: &str) -> Self {
        self.files[index] = hex(bytes);
        self
    }

    /// What both programs answer.
    fn answer(&self) -> Answer {
        let [schema, policies, first] = &self.files;
        let input = Input { schema, policies, pass: self.pass, first, second: &[] };
        let [mut ours, mut theirs] = [0; 2].map(|byte| vec![byte; self.room]);
        let both = [answer(self.call, &input, &mut ours), self.call.answer(&input, &mut theirs)];
        assert_eq!(both[0], both[1]);
        both[0]
    }
}

fn schema(offset: usize, cut: usize, bytes: &str) -> Example {
    Example::of(Call::Reconcile).with(0, offset, cut, bytes)
}

fn policies(offset: usize, cut: usize, bytes: &str) -> Example {
    Example::of(Call::Reconcile).with(1, offset, cut, bytes)
}

fn instance(offset: usize, cut: usize, bytes: &str) -> Example {
    Example::of(Call::Check).with(2, offset, cut, bytes)
}

/// The worked example with another pass or room.
fn call(call: Call, pass: (u16, u16), room: usize) -> Example {
    Example { pass, room, ..Example::of(call) }
}

/// The changes of 'One example for each', by its words.
fn one_for_each() -> Vec<(&'static str, Example)> {
    let seventeen = "50480000FFFF00".repeat(17);
    let listed = Example::of(Call::Reconcile).having(0, "534801 534E010001 0105");
    let longest = neulenta::LONGEST;
    vec![
        ("policies: the first PN is `50 58`", policies(7, 2, "5058")),
        ("policies: the last byte is cut off; the field is hi of node 1", policies(34, 1, "")),
        ("schema: count 0", schema(2, 1, "00")),
        ("schema: kind 2 at node 1", schema(12, 1, "02")),
        ("schema: successors 2, 1 at node 0", schema(7, 2, "0201")),
        ("schema: hi 0 at node 1", schema(20, 4, "00000000")),
        ("schema: one byte more", schema(29, 0, "00")),
        (
            "policies: seventeen times `50 48 0000 FFFF 00`",
            Example::of(Call::Reconcile).having(1, &seventeen),
        ),
        ("policies: days 100 to 99 in the first", policies(4, 2, "0063")),
        ("policies: node 0 a second time in the second policy", policies(26, 1, "00")),
        (
            "schema `53 48 01  53 4E 01 00 01 01 05`, policies `50 48 0000 FFFF 01  50 4E 00 00000020`",
            listed.having(1, "50480000FFFF01 504E00 00000020"),
        ),
        ("pass from 100 to 102", call(Call::Reconcile, (100, 102), longest)),
        (
            "policies: `50 48 0064 0064 01  50 4E 00 FF FF` appended, pass from 100 to 100",
            policies(35, 0, "50480064006401 504E00FFFF"),
        ),
        ("reconcile day 100 into 14 bytes", call(Call::Reconcile, (100, 100), 14)),
        ("the sheet of the instance into 109 bytes", call(Call::Sheet, (100, 100), 109)),
        ("instance: the first entry is for node 1", instance(5, 1, "01")),
        (
            "instance: m is 1 and the second entry is cut off",
            instance(7, 8, "").with(2, 2, 1, "01"),
        ),
        ("instance: choice 255 at node 0", instance(6, 1, "FF")),
        ("instance: value 11 at node 1", instance(11, 4, "0000000B")),
        (
            "check the instance for the pass from 100 to 101: the second policy admits 4 to 8",
            call(Call::Check, (100, 101), longest),
        ),
    ]
}

/// The changes of 'When the offset is not the fault', by its words.
fn not_the_fault() -> Vec<(&'static str, Example)> {
    let third = "534804 534E010301020300 534E01000100000000010000000A 534E010000 534E010000";
    vec![
        ("n 2 in the first PH", policies(6, 1, "02")),
        ("n 0 in the first PH", policies(6, 1, "00")),
        ("n 3 in the second PH", policies(18, 1, "03")),
        ("one rank left out at node 0 of the first policy", policies(11, 1, "")),
        (
            "a schema whose node 0 has a third successor",
            Example::of(Call::Reconcile).having(0, third),
        ),
        ("lo and hi of the second policy in two bytes each", policies(27, 8, "00040008")),
        ("the schema's `0A` (hi of node 1) became `0D 0A`", schema(23, 1, "0D0A")),
        ("a line feed after the last byte of the schema", schema(29, 0, "0A")),
        ("a line feed after the last byte of the policies", policies(35, 0, "0A")),
    ]
}

/// The rows of the table under `heading` whose cells at `columns` are number, file and offset and
/// whose cell at `words` says what was changed.
fn rows(heading: &str, columns: [usize; 3], words: usize) -> BTreeMap<&'static str, [u64; 3]> {
    let (_, part) = PAGE.split_once(heading).expect("the heading");
    let part = part.split("\n## ").next().expect("a part");
    let rows = part.lines().filter(|line| line.starts_with('|')).skip(2);
    rows.map(|row| row.trim_matches('|').split('|').map(str::trim).collect::<Vec<_>>())
        .map(|cells| (cells[words], columns.map(|column| cells[column].parse().expect("a number"))))
        .collect()
}

/// Demands that `examples` are those of a table, with its answers.
fn demand(examples: Vec<(&'static str, Example)>, table: &BTreeMap<&str, [u64; 3]>) {
    let answers = examples.iter().map(|(words, example)| {
        let Answer { number, file, offset, value } = example.answer();
        assert_eq!(value, 0, "{words}");
        (*words, [number.into(), file.into(), offset])
    });
    assert_eq!(&answers.collect::<BTreeMap<_, _>>(), table);
}

#[test]
fn one_example_for_each_number() {
    demand(one_for_each(), &rows("## One example for each", [0, 1, 2], 3));
}

#[test]
fn where_a_wrong_length_shows() {
    demand(not_the_fault(), &rows("## When the offset is not the fault", [1, 2, 3], 0));
}
