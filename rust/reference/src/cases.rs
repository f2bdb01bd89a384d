//! 01, 'Cases to hold the definitions to', one case or more for each row of 'Where a number arises',
//! and sheets as 02/1 lays them out, as a table to which any program after 01 and 02/1 can be held.

use crate::compare::{ALIKE, FIRST_BETTER, NEITHER, SECOND_BETTER};
use crate::{Answer, check, compare, copy, reconcile, sheet};

/// The calls of 01 and 02/1.
#[derive(Clone, Copy, Debug, PartialEq, Eq, PartialOrd, Ord, Hash)]
pub enum Call {
    /// The copying call.
    Copy,
    /// The reconciler.
    Reconcile,
    /// The checker.
    Check,
    /// The comparison.
    Compare,
    /// The console sheet.
    Sheet,
}

/// What calls take; a call leaves alone what it does not take.
#[derive(Clone, Copy, Debug, Default)]
pub struct Input<'a> {
    /// File 1.
    pub schema: &'a [u8],
    /// File 2.
    pub policies: &'a [u8],
    /// The pass.
    pub pass: (u16, u16),
    /// File 4.
    pub first: &'a [u8],
    /// File 5.
    pub second: &'a [u8],
}

impl Call {
    /// Every call.
    pub const ALL: [Call; 5] =
        [Call::Copy, Call::Reconcile, Call::Check, Call::Compare, Call::Sheet];

    /// The bytes of the longest that the call writes; 0 for a call without buffer.
    pub fn longest(self) -> usize {
        match self {
            Call::Copy | Call::Reconcile => 1_283,
            Call::Check | Call::Compare => 0,
            Call::Sheet => 3_520,
        }
    }

    /// The answer of this crate's call; a call without buffer leaves `out` as it is.
    pub fn answer(self, input: &Input, out: &mut [u8]) -> Answer {
        let Input { schema, policies, pass: (a, b), first, second } = *input;
        match self {
            Call::Copy => copy(schema, first, out),
            Call::Reconcile => reconcile(schema, policies, a, b, out),
            Call::Check => check(schema, policies, a, b, first),
            Call::Compare => compare(schema, policies, a, b, first, second),
            Call::Sheet => sheet(schema, first, out),
        }
    }
}

/// One line of the table.
#[derive(Clone, Debug)]
pub struct Case {
    /// What the case is about.
    pub name: &'static str,
    /// The call.
    pub call: Call,
    files: [Vec<u8>; 4],
    pass: (u16, u16),
    room: usize,
    answer: Answer,
    written: Vec<u8>,
}

impl Case {
    /// Demands of a program's `call` the answer and the whole buffer of this case.
    pub fn demand(&self, call: impl FnOnce(Call, &Input, &mut [u8]) -> Answer) {
        let [schema, policies, first, second] = &self.files;
        let input = Input { schema, policies, pass: self.pass, first, second };
        let mut out: Vec<u8> = (0..self.room).map(|index| index as u8 ^ 0xa5).collect();
        let mut expected = out.clone();
        expected[..self.written.len()].copy_from_slice(&self.written);
        let answer = call(self.call, &input, &mut out);
        assert_eq!(answer, self.answer, "{}", self.name);
        assert_eq!(out, expected, "{}: buffer", self.name);
    }

    /// The number that the case is about, 0 for success.
    pub fn number(&self) -> u32 {
        self.answer.number
    }

    fn on(call: Call, name: &'static str, schema: &str, policies: &str, pass: (u16, u16)) -> Self {
        let files = [hex(schema), hex(policies), Vec::new(), Vec::new()];
        let room = call.longest();
        Case { name, call, files, pass, room, answer: Answer::success(0), written: vec![] }
    }

    fn instance(mut self, instance: &str) -> Self {
        self.files[2] = hex(instance);
        self
    }

    fn second(mut self, instance: &str) -> Self {
        self.files[3] = hex(instance);
        self
    }

    fn room(mut self, room: usize) -> Self {
        self.room = room;
        self
    }

    fn gives(mut self, value: u64) -> Self {
        self.answer = Answer::success(value);
        self
    }

    fn writes(self, file: &str) -> Self {
        self.fills(hex(file))
    }

    /// Writes these lines of 54 bytes, each ended by a line feed.
    fn prints(self, lines: &[&str]) -> Self {
        let bytes = lines.iter().flat_map(|line| [line.as_bytes(), b"\n"].concat());
        self.fills(bytes.collect())
    }

    fn fills(mut self, bytes: Vec<u8>) -> Self {
        self.answer = Answer::success(bytes.len() as u64);
        self.written = bytes;
        self
    }

    fn refuses(mut self, number: u32, file: u32, offset: u64) -> Self {
        self.answer = Answer::refusal(number, file, offset);
        self.written.clear();
        self
    }
}

/// The bytes that 01 writes as hexadecimal digits parted by spaces.
pub fn hex(digits: &str) -> Vec<u8> {
    let digits: Vec<u8> =
        digits.chars().filter_map(|digit| digit.to_digit(16)).map(|digit| digit as u8).collect();
    digits.chunks(2).map(|pair| pair[0] << 4 | pair[1]).collect()
}

/// 01's schema.bin.
pub const SCHEMA: &str = "534803 534E0102010200 534E01000100000000010000000A 534E010000";
/// 01's policies.bin.
pub const POLICIES: &str =
    "50480064006401 504E000005 5048006500C802 504E000100 504E010000000400000008";
/// The instance of 01's line one.
pub const LINE_ONE: &str = "494802 494e0001 494e01ff00000001";

const THIRD: &str = "50480064006401 504E01000000140000001E";
const FOURTH: &str = "50480064006401 504E0000FF";

/// A leaf of one listed variable of size 5, and of size 32.
const SIZE_5: &str = "534801 534E0100010105";
const SIZE_32: &str = "534801 534E0100010120";
/// Node 0 all {1,2}, node 1 one {2,3}.
const SHARED: &str = "534804 534E0002010200 534E0102020300 534E010000 534E010000";
/// Node 0 all {1,2}, nodes 1 and 2 one {3,4}.
const TWO_CHOICES: &str =
    "534805 534E0002010200 534E0102030400 534E0102030400 534E010000 534E010000";

/// Node 0 all {1,2,4}, with a number -10..10 and a listed variable of size 5; node 1 one {3,5,6,7},
/// with one of size 3; node 2 one {5}; node 4 a leaf with four variables, 0..100, size 8, -5..5 and
/// size 32; node 6 a leaf with one of size 2; nodes 3, 5 and 7 leaves.
const LARGER: &str = "534808 534E0003010204 02 00FFFFFFF60000000A 0105 \
    534E010403050607 01 0103 534E01010500 534E010000 \
    534E0100 04 000000000000000064 0108 00FFFFFFFB00000005 0120 \
    534E010000 534E0100010102 534E010000";
const DAY_10: &str = "5048000A000A02 504E00 FFFFFFF90000000A 0000001C 504E01 04040202 00000006";
const DAY_9: &str = "50480009000901 504E01 0000FFFF 00000007";
const DAYS_5_TO_20: &str = "50480005001402 504E01 01000703 00000005 \
    504E04 0000001400000032 000000F0 FFFFFFFD00000009 80010000";
const DAYS_10_TO_11: &str = "5048000A000B02 \
    504E04 0000001E00000028 00000060 FFFFFF80FFFFFFFF C0000000 504E07";

/// A leaf, node 1, whose fourth variable has size 33.
const FOURTH_VARIABLE: &str = "534802 534E00010100 534E0100 04 0108 000000000000000064 0120 0121";

/// All cases.
pub fn all() -> Vec<Case> {
    let definitions = [worked(), definitions(), order()].concat();
    let larger = [larger(), larger_values(), larger_rows(), larger_order()].concat();
    let rows = [schema_rows(), policy_rows(), pass_rows(), instance_rows(), last_rows()].concat();
    let sheets = [sheets(), sheet_columns(), sheet_rows()].concat();
    [definitions, larger, rows, sheets].concat()
}

fn reconciled(name: &'static str, policies: &str, pass: (u16, u16)) -> Case {
    Case::on(Call::Reconcile, name, SCHEMA, policies, pass)
}

fn worked() -> Vec<Case> {
    let third = [POLICIES, THIRD].concat();
    let fourth = [POLICIES, THIRD, FOURTH].concat();
    vec![
        reconciled("line one", POLICIES, (100, 100)).writes(LINE_ONE),
        reconciled("line two: both days", POLICIES, (100, 101))
            .writes("494802494e0001494e01ff00000004"),
        reconciled("line three", POLICIES, (101, 101)).writes("494802494e0002494e02ff"),
        reconciled("line four: b below a", POLICIES, (101, 100)).refuses(12, 3, 0),
        reconciled("no policy in force", POLICIES, (300, 300)).writes(LINE_ONE),
        reconciled("b above a + 1", POLICIES, (100, 102)).refuses(12, 3, 0),
        reconciled("best-ranked successor cannot be met", &third, (100, 100))
            .writes("494802494e0002494e02ff"),
        reconciled("no instance meets the policies", &fourth, (100, 100)).refuses(13, 0, 0),
        reconciled("13 before 14", &fourth, (100, 100)).room(0).refuses(13, 0, 0),
        reconciled("15 bytes suffice", POLICIES, (100, 100)).room(15).writes(LINE_ONE),
        reconciled("14 bytes don't", POLICIES, (100, 100)).room(14).refuses(14, 0, 0),
        reconciled("an empty buffer", POLICIES, (100, 100)).room(0).refuses(14, 0, 0),
        reconciled("a longer buffer", POLICIES, (100, 100)).room(3_000).writes(LINE_ONE),
        Case::on(Call::Reconcile, "empty schema", "", POLICIES, (101, 100)).refuses(2, 1, 0),
        Case::on(Call::Copy, "line one copied", SCHEMA, "", (0, 0))
            .instance(LINE_ONE)
            .room(15)
            .writes(LINE_ONE),
        Case::on(Call::Copy, "line one copied into 14 bytes", SCHEMA, "", (0, 0))
            .instance(LINE_ONE)
            .room(14)
            .refuses(14, 0, 0),
        Case::on(Call::Check, "line one accepted", SCHEMA, POLICIES, (100, 100)).instance(LINE_ONE),
    ]
}

fn definitions() -> Vec<Case> {
    let below_zero = "534801 534E01000100FFFFFFFBFFFFFFFF";
    let root = |said: &str| ["5048 00000000 01 504E00", said].concat();
    let on =
        |name, schema, policies: &str| Case::on(Call::Reconcile, name, schema, policies, (0, 0));
    vec![
        on("signed bounds", below_zero, &root("FFFFFFFD 0000000A"))
            .writes("494801 494e00ff fffffffd"),
        on("lo above hi", below_zero, &root("FFFFFFFE FFFFFFFD")).refuses(13, 0, 0),
        on("the highest bit of 32", SIZE_32, &[root("80000000"), root("C0000000")].concat())
            .writes("494801 494e00ff 1f"),
        on("bit 4 of size 5", SIZE_5, &root("00000010")).writes("494801 494e00ff 04"),
        on("bit 5 of size 5", SIZE_5, &root("00000020")).refuses(11, 2, 10),
        on("an empty mask", SIZE_5, &root("00000000")).refuses(13, 0, 0),
        on("choosing 3 reaches all four", SHARED, "5048 00000000 01 504E01 0100")
            .writes("494804 494e00ff 494e0103 494e02ff 494e03ff"),
        Case::on(Call::Copy, "a shared node is reached once", SHARED, "", (0, 0))
            .instance("494803 494e00ff 494e0102 494e02ff")
            .writes("494803 494e00ff 494e0102 494e02ff"),
    ]
}

/// Two instances of `TWO_CHOICES` under `policies`.
fn pair(name: &'static str, policies: &str, first: &str, second: &str) -> Case {
    let instance = |choices: &str| match choices {
        "33" => "494804 494e00ff 494e0103 494e0203 494e03ff",
        "34" => "494805 494e00ff 494e0103 494e0204 494e03ff 494e04ff",
        "43" => "494805 494e00ff 494e0104 494e0203 494e03ff 494e04ff",
        _ => "494804 494e00ff 494e0104 494e0204 494e04ff",
    };
    Case::on(Call::Compare, name, TWO_CHOICES, policies, (7, 7))
        .instance(instance(first))
        .second(instance(second))
}

fn order() -> Vec<Case> {
    let four = "5048 00070007 01 504E01 0100";
    let four_forbidden = "5048 00070007 01 504E01 00FF";
    let both_forbidden = "5048 00070007 01 504E01 FFFF";
    let not_in_force = "5048 00080009 01 504E01 0100";
    let same_ranks = "5048 00070007 01 504E01 0909";
    vec![
        pair("each better at one", "", "34", "43").gives(NEITHER),
        pair("the same choices", "", "34", "34").gives(ALIKE),
        pair("the lower number is better", "", "33", "34").gives(FIRST_BETTER),
        pair("the second has the lower number", "", "44", "34").gives(SECOND_BETTER),
        pair("a rank outweighs the number", four, "33", "43").gives(SECOND_BETTER),
        pair("a policy not in force", not_in_force, "33", "43").gives(FIRST_BETTER),
        pair("255 ranks as worst", four_forbidden, "43", "33").gives(SECOND_BETTER),
        pair("255 twice is no difference", both_forbidden, "43", "33").gives(SECOND_BETTER),
        pair("after equal ranks the next policy", &[both_forbidden, four].concat(), "43", "33")
            .gives(FIRST_BETTER),
        pair("the earlier policy has precedence", &[four_forbidden, four].concat(), "43", "33")
            .gives(SECOND_BETTER),
        pair("equal ranks leave it to the number", same_ranks, "33", "43").gives(FIRST_BETTER),
        pair("better at both", four, "43", "34").gives(FIRST_BETTER),
    ]
}

/// An instance of `LARGER` in which node 1 chooses `choice`, by the values of nodes 0, 1 and 4.
fn choosing(choice: u8, values: [&str; 3]) -> String {
    let (entries, three, last) = match choice {
        3 => (6, "494e03ff", ""),
        5 => (5, "", ""),
        6 => (6, "", "494e06ff01"),
        _ => (6, "", "494e07ff"),
    };
    let [root, one, four] = values;
    format!(
        "49480{entries} 494e00ff{root} 494e010{choice}{one} 494e0205 {three} \
         494e04ff{four} 494e05ff {last}"
    )
}

/// The least values of nodes 0, 1 and 4 of `LARGER` on day 10.
const LEAST: [&str; 3] = ["fffffff9 02", "02", "0000001e 05 fffffffd 1f"];

/// `call` on `LARGER` under its four policies.
fn on_larger(call: Call, name: &'static str, pass: (u16, u16)) -> Case {
    let policies = [DAY_10, DAY_9, DAYS_5_TO_20, DAYS_10_TO_11].concat();
    Case::on(call, name, LARGER, &policies, pass)
}

/// Nodes with several successors and variables, under several policies.
fn larger() -> Vec<Case> {
    let reconciled = |name, pass, room, instance: String| {
        on_larger(Call::Reconcile, name, pass).room(room).writes(&instance)
    };
    let checked = |name, choice, values| {
        on_larger(Call::Check, name, (10, 10)).instance(&choosing(choice, values))
    };
    let [_, one, _] = LEAST;
    let on_day_9 = ["fffffff6 00", "00", "00000014 04 fffffffd 10"];
    let copied = choosing(6, ["00000003 01", one, "00000004 05 fffffffb 07"]);
    vec![
        reconciled("the second policy decides", (10, 10), 45, choosing(7, LEAST)),
        reconciled("no PN of the root", (9, 9), 39, choosing(5, on_day_9)),
        reconciled("the third policy decides", (9, 10), 40, choosing(5, LEAST)),
        checked("what is written is accepted", 7, LEAST),
        checked("highest values", 6, ["0000000a 04", one, "00000028 06 ffffffff 1f"]),
        Case::on(Call::Copy, "every value copied", LARGER, "", (0, 0))
            .instance(&copied)
            .room(45)
            .writes(&copied),
    ]
}

/// A choice or value of `LARGER` that is forbidden, or a value outside its domain.
fn larger_values() -> Vec<Case> {
    let refused = |name, pass, choice, values, number, offset| {
        let case = on_larger(Call::Check, name, pass).instance(&choosing(choice, values));
        case.refuses(number, 4, offset)
    };
    let [root, one, four] = LEAST;
    let of_0 = |name, root, offset| refused(name, (10, 10), 7, [root, one, four], 18, offset);
    let of_4 =
        |name, four, number, offset| refused(name, (10, 10), 7, [root, one, four], number, offset);
    let on_both = [root, "01", "0000001e 07 fffffffd 1f"];
    vec![
        of_0("18 at the root's first value", "fffffff8 02", 7),
        of_0("18 at the root's second value", "fffffff9 01", 11),
        refused("18 where there is a choice too", (10, 10), 7, [root, "01", four], 18, 16),
        of_4("18 at the first of four", "00000029 05 fffffffd 1f", 18, 25),
        of_4("18 at the second of four", "0000001e 07 fffffffd 1f", 18, 29),
        of_4("18 at the third of four", "0000001e 05 00000000 1f", 18, 30),
        of_4("18 at the fourth of four", "0000001e 05 fffffffd 1e", 18, 34),
        of_4("18 at the second and fourth", "0000001e 07 fffffffd 1e", 18, 29),
        refused("18 at a third successor", (9, 9), 6, ["fffffff6 00", one, four], 18, 15),
        refused("18 at a fourth successor", (9, 10), 7, on_both, 18, 15),
        of_4("17 at the first of four", "00000065 05 fffffffd 1f", 17, 25),
        of_4("17 at the second of four", "0000001e 08 fffffffd 1f", 17, 29),
        of_4("17 at the third of four", "0000001e 05 fffffffa 1f", 17, 30),
        of_4("17 at the fourth of four", "0000001e 05 fffffffd 20", 17, 34),
    ]
}

/// Breaches in what stands second, third or last.
fn larger_rows() -> Vec<Case> {
    let of = |name, policies: &str, instance: &str, (number, file, offset)| {
        let case = Case::on(Call::Check, name, LARGER, policies, (10, 10)).instance(instance);
        case.refuses(number, file, offset)
    };
    let read = |name, later: &str, number, offset| {
        of(name, &[DAY_10, "50480009000902 ", later].concat(), "", (number, 2, offset))
    };
    let schema = |name, schema, number, offset| {
        Case::on(Call::Check, name, schema, "", (10, 10)).refuses(number, 1, offset)
    };
    let root = "494e00fffffffff902";
    let entry = |name, entries: &str, number, offset| {
        of(name, "", &["494806", root, entries].concat(), (number, 4, offset))
    };
    let left_out = ["494805", root, "494e010702 494e0205 494e05ff"].concat();
    let (mask, hi) = ("504E04 0000001400000032 00000100", "504E04 0000001400000032 000000F0");
    let (node_0, node_1) = ("504E00 FFFFFFF90000000A 0000001C ", "504E01 0000FFFF 00000007 ");
    vec![
        entry("16 between two successors", "494e0104", 16, 15),
        of("16 at kind 0", "", "494806 494e0001", (16, 4, 6)),
        entry("16 with one successor", "494e010702 494e02ff", 16, 20),
        entry("15 not reached", "494e010702 494e0205 494e03", 15, 23),
        of("15 a third left out", "", &left_out, (15, 4, 23)),
        read("10 in a later PN", &[node_1, "504E01"].concat(), 10, 53),
        read("11 in a later PN", &[node_0, mask].concat(), 11, 66),
        read("2 in a later PN", &[node_1, hi, "FFFFFFFD 000000"].concat(), 2, 70),
        schema("5 at a third successor", "534808 534E0003010202", 5, 9),
        schema("5 at a later node's own number", "534803 534E01010100 534E010101", 5, 13),
        schema("6 at a fourth variable", FOURTH_VARIABLE, 6, 28),
    ]
}

/// The order by ranks of a third successor and of a later policy.
fn larger_order() -> Vec<Case> {
    let compared = |name, pass| on_larger(Call::Compare, name, pass);
    let under = |name, policies: &str, pass| Case::on(Call::Compare, name, LARGER, policies, pass);
    let of =
        |case: Case, first: &str, second| case.instance(first).second(&choosing(second, LEAST));
    let [three, six, seven] = [3, 6, 7].map(|choice| choosing(choice, LEAST));
    let [_, one, four] = LEAST;
    let higher = choosing(7, ["0000000a 04", one, four]);
    let forbidden_first = [DAY_9, DAY_10].concat();
    vec![
        of(compared("a later policy", (10, 10)), &higher, 6).gives(FIRST_BETTER),
        of(compared("a third successor", (10, 10)), &three, 6).gives(SECOND_BETTER),
        of(compared("other values", (10, 10)), &higher, 7).gives(ALIKE),
        of(under("no policy", "", (10, 10)), &six, 3).gives(SECOND_BETTER),
        of(compared("two 255", (9, 9)), &six, 7).gives(SECOND_BETTER),
        of(under("one 255", &forbidden_first, (9, 10)), &seven, 3).gives(SECOND_BETTER),
    ]
}

fn schema_rows() -> Vec<Case> {
    let row = |name, schema, number, offset| {
        Call::ALL.map(|call| Case::on(call, name, schema, "", (0, 0)).refuses(number, 1, offset))
    };
    [
        row("SH mark", "534903 534E", 1, 0),
        row("SH mark with a lower letter", "524803 534E", 1, 0),
        row("half a mark", "50", 2, 0),
        row("SH count missing", "5348", 2, 2),
        row("SH count zero", "534800", 3, 2),
        row("SH count above 64", "534841", 3, 2),
        row("SN mark", "534801 534F", 1, 3),
        row("SN mark missing", "534801", 2, 3),
        row("SN kind above 1", "534801 534E02", 4, 5),
        row("SN c above 8", "534801 534E0109", 4, 6),
        row("SN c 0 under kind 0", "534801 534E0000", 4, 6),
        row("SN successor its own node", "534803 534E010100", 5, 7),
        row("SN successors equal", "534803 534E01020101", 5, 8),
        row("SN successors descending", "534803 534E01020201", 5, 8),
        row("SN successor not below count", "534803 534E01020103", 5, 8),
        row("SN v above 4", "534801 534E010005", 6, 7),
        row("SN type above 1", "534801 534E01000102", 6, 8),
        row("SN lo incomplete", "534801 534E01000100 800000", 2, 9),
        row("SN hi incomplete", "534801 534E01000100 00000000 7FFFFF", 2, 13),
        row("SN hi below lo", "534801 534E01000100 00000000 FFFFFFFF", 6, 13),
        row("SN size 0", "534801 534E01000101 00", 6, 9),
        row("SN size above 32", "534801 534E01000101 21", 6, 9),
        row("a byte after the schema", "534801 534E010000 53", 7, 8),
        row("a node more than the count", "534801 534E010000 534E010000", 7, 8),
    ]
    .concat()
}

fn policy_rows() -> Vec<Case> {
    let row = |name, policies: &str, number, offset| {
        reconciled(name, policies, (100, 100)).refuses(number, 2, offset)
    };
    let sixteen = "5048 0000FFFF 00".repeat(16);
    let mask = |name, mask, offset| {
        Case::on(Call::Reconcile, name, SIZE_5, mask, (0, 0)).refuses(11, 2, offset)
    };
    vec![
        reconciled("sixteen policies", &sixteen, (65_535, 65_535)).writes(LINE_ONE),
        row("PH mark", "5049", 1, 0),
        row("a stray byte", "00", 2, 0),
        row("a byte after a policy", "5048 00000000 00 00", 2, 7),
        row("two bytes after a policy", "5048 00000000 00 0000", 1, 7),
        row("PH first incomplete", "5048 00", 2, 2),
        row("PH last incomplete", "5048 0001 00", 2, 4),
        row("PH last below first", "5048 0001 0000", 9, 4),
        row("PH n missing", "5048 0000 0000", 2, 6),
        row("PN missing", "5048 00000000 01", 2, 7),
        row("PN mark", "5048 00000000 01 5048", 1, 7),
        row("PN node missing", "5048 00000000 01 504E", 2, 9),
        row("PN node not below count", "5048 00000000 01 504E03", 10, 9),
        row("PN node twice", "5048 00000000 02 504E02 504E02", 10, 12),
        row("PN nodes descending", "5048 00000000 02 504E02 504E00", 10, 12),
        row("PN rank missing", "5048 00000000 01 504E00 00", 2, 11),
        row("PN lo incomplete", "5048 00000000 01 504E01 000000", 2, 10),
        row("PN hi incomplete", "5048 00000000 01 504E01 00000000 000000", 2, 14),
        mask("PN mask beyond its size", "5048 00000000 01 504E00 80000000", 10),
        row("before a 17th PH", &[&sixteen, "5048"].concat(), 8, 112),
        row("whatever the byte is", &[&sixteen, "00"].concat(), 8, 112),
    ]
}

fn pass_rows() -> Vec<Case> {
    let last_day = "5048 FFFFFFFF 01 504E00 FF00";
    let chooses_2 = "494802 494e0002 494e02ff";
    vec![
        reconciled("the last day alone", last_day, (65_535, 65_535)).writes(chooses_2),
        reconciled("up to the last day", last_day, (65_534, 65_535)).writes(chooses_2),
        reconciled("no day after the last", last_day, (65_535, 0)).refuses(12, 3, 0),
        reconciled("policies before pass", "5049", (2, 0)).refuses(1, 2, 0),
        Case::on(Call::Check, "pass before instance", SCHEMA, POLICIES, (2, 0)).refuses(12, 3, 0),
        Case::on(Call::Compare, "pass before instances", SCHEMA, POLICIES, (2, 4))
            .refuses(12, 3, 0),
    ]
}

fn instance_rows() -> Vec<Case> {
    let of = |name, schema, instance, number, offset| {
        [Call::Copy, Call::Check, Call::Sheet].map(|call| {
            Case::on(call, name, schema, "", (0, 0)).instance(instance).refuses(number, 4, offset)
        })
    };
    let row = |name, instance, number, offset| of(name, SCHEMA, instance, number, offset);
    [
        row("instance missing", "", 2, 0),
        row("IH mark", "4949", 1, 0),
        row("IH m missing", "4948", 2, 2),
        row("no entry", "494800", 15, 2),
        row("an entry too few", "494801 494e0001", 15, 2),
        row("15 at m before 7", "494801 494e0001 494e01ff00000004", 15, 2),
        row("IN missing", "494801", 2, 3),
        row("IN mark", "494801 4949", 1, 3),
        row("IN node missing", "494801 494e", 2, 5),
        row("IN node not the lowest reached", "494801 494e01", 15, 5),
        row("IN node not reached", "494802 494e0002 494e01", 15, 9),
        row("none is left", "494803 494e0002 494e02ff 494e02", 15, 13),
        row("the extra entry's mark first", "494803 494e0002 494e02ff 4e4e", 1, 11),
        row("IN choice missing", "494801 494e00", 2, 6),
        row("IN choice no successor", "494801 494e0003", 16, 6),
        row("IN choice of a leaf", "494802 494e0001 494e0100", 16, 10),
        row("IN choice beyond all nodes", "494801 494e00ff", 16, 6),
        of("IN choice of kind 0", SHARED, "494801 494e0001", 16, 6),
        row("IN value incomplete", "494802 494e0001 494e01ff 000000", 2, 11),
        row("IN value below the domain", "494802 494e0001 494e01ff 00000000", 17, 11),
        row("IN value above the domain", "494802 494e0001 494e01ff 0000000b", 17, 11),
        of("IN value at size", SIZE_5, "494801 494e00ff 05", 17, 7),
        row("a byte after the instance", "494802 494e0002 494e02ff 00", 7, 11),
    ]
    .concat()
}

fn last_rows() -> Vec<Case> {
    let check = |name, policies, pass, instance| {
        Case::on(Call::Check, name, SCHEMA, policies, pass).instance(instance)
    };
    vec![
        check("18 at the value", POLICIES, (100, 101), LINE_ONE).refuses(18, 4, 11),
        check("18 at the choice", FOURTH, (100, 100), "494802 494e0002 494e02ff").refuses(18, 4, 6),
        check("7 before 18", POLICIES, (100, 101), &[LINE_ONE, "00"].concat()).refuses(7, 4, 15),
        pair("first before second", "", "33", "34").instance("").second("").refuses(2, 4, 0),
        pair("file 5", "", "33", "34").second("494801 494e00").refuses(2, 5, 6),
    ]
}

/// The sheet of an instance of `schema`.
fn sheet_of(name: &'static str, schema: &str, instance: &str) -> Case {
    Case::on(Call::Sheet, name, schema, "", (0, 0)).instance(instance)
}

/// The sheet of 01's line one.
const SHEET_ONE: [&str; 2] = [
    " 0   1                                                ",
    " 1 ---           1                                    ",
];

fn sheets() -> Vec<Case> {
    let one = |name| sheet_of(name, SCHEMA, LINE_ONE);
    vec![
        one("line one as a sheet").prints(&SHEET_ONE),
        one("a sheet into 110 bytes").room(110).prints(&SHEET_ONE),
        one("a sheet into 109 bytes").room(109).refuses(14, 0, 0),
        one("a sheet into none").room(0).refuses(14, 0, 0),
        one("a sheet into more than the longest").room(5_000).prints(&SHEET_ONE),
        sheet_of("line three as a sheet", SCHEMA, "494802 494e0002 494e02ff").prints(&[
            " 0   2                                                ",
            " 2 ---                                                ",
        ]),
        sheet_of("every value on a sheet", LARGER, &choosing(7, LEAST)).room(330).prints(&[
            " 0 ---          -7           2                        ",
            " 1   7           2                                    ",
            " 2   5                                                ",
            " 4 ---          30           5          -3          31",
            " 5 ---                                                ",
            " 7 ---                                                ",
        ]),
    ]
}

/// A number of any value.
const NUMBER: &str = "00 80000000 7FFFFFFF ";

/// Columns from the narrowest to the widest.
fn sheet_columns() -> Vec<Case> {
    let leaf = |variables| format!("534E0100 0{variables} {}", NUMBER.repeat(variables));
    let numbers = |values: &str| ["494801 494e00ff", values].concat();
    let of_four = |name, values| sheet_of(name, &["534801", &leaf(4)].concat(), &numbers(values));
    let up_to_four = [0, 1, 2, 3, 4].map(leaf).concat();
    let last_node = ["534840 534E0102013F00", &leaf(0).repeat(63)].concat();
    vec![
        of_four("both ends of i32", "80000000 7FFFFFFF 80000001 7FFFFFFE")
            .prints(&[" 0 --- -2147483648  2147483647 -2147483647  2147483646"]),
        of_four("about 0", "00000000 FFFFFFFF 00000001 FFFFFFF6")
            .prints(&[" 0 ---           0          -1           1         -10"]),
        of_four("digits", "00000009 0000000A 3B9AC9FF 3B9ACA00")
            .prints(&[" 0 ---           9          10   999999999  1000000000"]),
        of_four("negative digits", "FFFFFFF7 FFFFFF9D C4653601 C4653600")
            .prints(&[" 0 ---          -9         -99  -999999999 -1000000000"]),
        sheet_of("a value of 31", SIZE_32, "494801 494e00ff 1f")
            .prints(&[" 0 ---          31                                    "]),
        sheet_of(
            "none to four values",
            &["534806 534E0005 0102030405 00", &up_to_four].concat(),
            "494806 494e00ff 494e01ff 494e02ff 00000064 494e03ff 00000001 FFFFFFFF \
             494e04ff 00000002 00000000 FFFFFFFE 494e05ff 00000004 00000003 00000002 00000001",
        )
        .prints(&[
            " 0 ---                                                ",
            " 1 ---                                                ",
            " 2 ---         100                                    ",
            " 3 ---           1          -1                        ",
            " 4 ---           2           0          -2            ",
            " 5 ---           4           3           2           1",
        ]),
        sheet_of("the first node and the last", &last_node, "494802 494e003f 494e3fff").prints(&[
            " 0  63                                                ",
            "63 ---                                                ",
        ]),
        longest_sheet("the longest sheet"),
        longest_sheet("the longest sheet and a byte").room(3_521),
        longest_sheet("a byte less than the longest sheet").room(3_519).refuses(14, 0, 0),
    ]
}

/// 64 nodes that are all reached, with four numbers each.
fn longest_sheet(name: &'static str) -> Case {
    let [mut schema, mut instance] = ["534840", "494840"].map(str::to_string);
    let mut lines = Vec::new();
    for node in 0..64 {
        let next = if node < 63 { format!("0001{:02X}", node + 1) } else { "0100".to_string() };
        schema += &format!("534E{next}04{}", NUMBER.repeat(4));
        instance += &format!("494E{node:02X}FF{}{node:08X}", "80000000".repeat(3));
        lines.push(format!("{node:>2} ---{}{node:>12}", " -2147483648".repeat(3)));
    }
    let lines: Vec<&str> = lines.iter().map(String::as_str).collect();
    sheet_of(name, &schema, &instance).prints(&lines)
}

fn sheet_rows() -> Vec<Case> {
    let of = |name, schema, instance: &str| sheet_of(name, schema, instance).room(0);
    let surplus = [LINE_ONE, "00"].concat();
    vec![
        of("7 before 14", SCHEMA, &surplus).refuses(7, 4, 15),
        of("15 before 14", SCHEMA, "494801 494e0001").refuses(15, 4, 2),
        of("schema before instance", "", "").refuses(2, 1, 0),
    ]
}
