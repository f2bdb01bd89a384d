//! The readers alone: number and offset of every truncation of 01's worked files.

use reference::cases::{LINE_ONE, POLICIES, SCHEMA, hex};
use reference::fields::Breach;
use reference::instance::{Entry, Instance};
use reference::pass::Pass;
use reference::policies::{Days, Places, Policies};
use reference::schema::{Node, Schema};

/// Demands of every truncation of `file`, whose fields have these `widths`, 2 at the field that
/// is cut, unless `whole` says that it is a file of its own.
fn demand_cuts(
    file: &[u8],
    widths: &[usize],
    whole: &[usize],
    read: impl Fn(&[u8]) -> Result<(), Breach>,
) {
    assert_eq!(widths.iter().sum::<usize>(), file.len());
    let mut start = 0;
    for width in widths {
        for length in start..start + width {
            let expected = Err(Breach { number: 2, offset: start });
            let expected = if whole.contains(&length) { Ok(()) } else { expected };
            assert_eq!(read(&file[..length]), expected, "{length} bytes");
        }
        start += width;
    }
    assert_eq!(read(file), Ok(()));
}

fn with_schema<T>(read: impl Fn(&Schema) -> T) -> T {
    let bytes = hex(SCHEMA);
    let mut table = [Node::UNREAD; 3];
    let schema = Schema::read(&bytes, &mut table).expect("01's schema is good");
    read(&schema)
}

#[test]
fn a_cut_schema() {
    let widths = [2, 1, 2, 1, 1, 1, 1, 1, 2, 1, 1, 1, 1, 4, 4, 2, 1, 1, 1];
    demand_cuts(&hex(SCHEMA), &widths, &[], |bytes| {
        Schema::read(bytes, &mut [Node::UNREAD; 64]).map(drop)
    });
}

#[test]
fn cut_policies() {
    let widths = [2, 2, 2, 1, 2, 1, 1, 1, 2, 2, 2, 1, 2, 1, 1, 1, 2, 1, 4, 4];
    with_schema(|schema| {
        demand_cuts(&hex(POLICIES), &widths, &[0, 12], |bytes| {
            Policies::read(schema, bytes, &mut [Places::NONE; 3], |_| true).map(drop)
        });
    });
}

#[test]
fn a_cut_instance() {
    with_schema(|schema| {
        demand_cuts(&hex(LINE_ONE), &[2, 1, 2, 1, 1, 2, 1, 1, 4], &[], |bytes| {
            Instance::read(schema, bytes, &mut [Entry::UNKNOWN; 3]).map(drop)
        });
    });
}

#[test]
fn what_the_schema_reader_found() {
    with_schema(|schema| {
        assert_eq!(schema.count(), 3);
        assert_eq!(schema.nodes().iter().map(Node::ranks).collect::<Vec<_>>(), [2, 0, 0]);
        assert_eq!(schema.node(0).successors, 0b110);
        assert_eq!(schema.nodes().iter().map(Node::entry_width).collect::<Vec<_>>(), [4, 8, 4]);
    });
}

#[test]
fn only_chosen_policies_are_kept() {
    with_schema(|schema| {
        let bytes = hex(POLICIES);
        let ranks = |chosen: fn(Days) -> bool| -> Vec<u8> {
            let mut table = [Places::NONE; 3];
            let policies = Policies::read(schema, &bytes, &mut table, chosen);
            let policies = policies.expect("01's policies are good");
            policies.naming(0).iter().map(|node| node.rank(0)).collect()
        };
        assert_eq!(ranks(|_| true), [0, 1]);
        assert_eq!(ranks(|days| days.last == 200), [1]);
        assert!(ranks(|_| false).is_empty());
    });
}

#[test]
fn passes_and_days() {
    let breach = Err(Breach { number: 12, offset: 0 });
    for (a, b, judged) in [
        (0, 0, Ok(())),
        (0, 1, Ok(())),
        (65_534, 65_535, Ok(())),
        (65_535, 65_535, Ok(())),
        (65_535, 0, breach),
        (1, 0, breach),
        (0, 2, breach),
        (0, 65_535, breach),
    ] {
        assert_eq!(Pass { a, b }.judge(), judged, "{a} to {b}");
    }
    let pass = Pass { a: 10, b: 11 };
    let in_force = |first, last| pass.in_force(Days { first, last });
    assert!(in_force(0, 10) && in_force(11, 11) && in_force(11, 65_535) && in_force(0, 65_535));
    assert!(!in_force(0, 9) && !in_force(12, 65_535));
}
