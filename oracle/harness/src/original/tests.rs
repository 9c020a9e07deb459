//! Examples of document 01, and commands outside the domain.
use super::{Original, Outside};
use crate::{hex, script, sets};
use prom_ui::shell_bridge::glue::RawPatch;
use prom_ui::shell_bridge::{BridgePatchEnvelope, BridgePatchOperation as Operation, BridgeValue};

fn answers(lines: &str) -> Result<String, Outside> {
    let (mut original, mut out) = (Original::default(), Vec::new());
    for line in lines.lines() {
        original.answer(&script::parse(line.as_bytes()).unwrap(), &mut out)?;
    }
    Ok(String::from_utf8(out).unwrap())
}

fn patch(patch_id: u64, sequence: u64, operations: Vec<Operation>) -> RawPatch {
    let (previous_revision, revision) = (sequence, sequence + 1);
    let envelope =
        BridgePatchEnvelope { patch_id, stream_id: 1, document_id: 1, previous_revision, revision, epoch: 0, sequence };
    RawPatch { envelope, surface: None, operations }
}

fn field(patches: &[RawPatch]) -> String {
    let mut out = Vec::new();
    hex::write(&sets::encode(patches), &mut out);
    String::from_utf8(out).unwrap()
}

fn pending(node: u64) -> Operation {
    Operation::SetNodeAvailability { node, availability: sets::availability(3) }
}

#[test]
fn lists_the_example_of_document_01() {
    let insert = |key, before, value| Operation::CollectionInsert { collection: 9, key, before, value };
    let operations = vec![
        pending(5),
        insert(2, None, BridgeValue::Signed(-4)),
        insert(1, Some(2), BridgeValue::Text("Ok".to_string())),
        Operation::SetBindingValue { node: 5, slot: 0, value: BridgeValue::Quad(sets::quad(2)) },
    ];
    let set = field(&[patch(1, 1, operations)]);
    assert_eq!(set.len(), 2 * 181);
    let listing = "P\t4\nB\t5\t0\tQ\t2\nA\t5\t3\nC\t9\t1\tT\tOk\nC\t9\t2\tS\t-4\n";
    assert_eq!(answers(&format!("list {set}")), Ok(listing.to_string()));
}

#[test]
fn drops_repeated_findings() {
    let set = field(&[7, 7, 7].map(|id| patch(id, 3, vec![pending(1)])));
    assert_eq!(answers(&format!("check {set}")), Ok("K\t0\tset\t2\nF\t4\t7\t3\nF\t5\t7\t3\n".to_string()));
}

#[test]
fn answers_a_session() {
    let set = field(&[patch(1, 1, vec![pending(4)])]);
    let script = format!("session 8 10 0 1 1\nnode 4\ncreate\nbatch 8 9 1 10 1 {set}\nbatch 7 9 1 10 1 {set}\nvalue node 4\nshow\napply resume 2");
    let expected = "S\t0\nR\tapplied\t0\t0\t0\t0\t9\nR\trejected\t0\t0\t1\t0\t9\nV\tA\t3\nP\t1\nA\t4\t3\nL\trejected\t0\t0\t1\t0\tcreated\t9\t2\n";
    assert_eq!(answers(&script), Ok(expected.to_string()));
}

#[test]
fn invents_no_answer() {
    let zero = field(&[patch(0, 1, vec![pending(1)])]);
    let found = field(&[patch(1, 1, vec![])]);
    let nodes = "node 1\n".repeat(129);
    let scripts = [
        "show".to_string(),
        "check -".to_string(),
        format!("check {zero}"),
        format!("list {found}"),
        format!("create\nbatch 1 1 1 1 1 {found}"),
        format!("{nodes}create"),
    ];
    for script in scripts {
        assert!(answers(&script).is_err(), "{script}");
    }
}

#[test]
fn stops_at_full_panels() {
    let mut lines = "session 1 0 1 64 200\n".to_string();
    let nodes = (1..=65).map(|i| format!("node {i}\n")).collect::<String>();
    let all = field(&[patch(1, 1, (1..=64).map(pending).collect())]);
    let one_more = field(&[patch(1, 1, vec![pending(65)])]);
    lines += &format!("{nodes}create\nbatch 1 0 1 0 64 {all}\n");
    assert!(answers(&lines).is_ok());
    assert!(answers(&format!("{lines}batch 1 1 1 0 1 {one_more}")).is_err());
    assert!(answers(&format!("{lines}batch 2 1 1 0 1 {one_more}")).is_ok());
}
