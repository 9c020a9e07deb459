//! Times of sessions, operations, look-ups, texts and writing, on both sides.
use std::hint::black_box;

use prom_ui::shell_bridge::glue::{self, RawPatch};
use prom_ui::shell_bridge::{initial_local_projection_state, prepare_patch_submission};
use prom_ui::shell_bridge::{BridgeValue, LocalProjectionStateHandle, PreparedPatchSubmission};
use prom_ui_runtime::shell_player::*;

use crate::bench::{admitted, built, least, original, proved, proved_in_turn, show};
use crate::bench_panels::{self, Layout, PanelSets};
use crate::{bench_sets, processor};

const ENTRIES: [u64; 3] = [0, 32, 120];
const OPERATIONS: [u64; 4] = [1, 10, 50, 128];
const CALLS: u64 = 4_000;

/// A batch of the original, with its counts.
struct Prepared {
    submission: PreparedPatchSubmission,
    patches: usize,
    operations: usize,
}

fn prepare(list: &[RawPatch]) -> Prepared {
    let submission = prepare_patch_submission(admitted(glue::check(built(list)))).expect("indices fit a u64");
    let operations = list.iter().map(|p| p.operations.len()).sum();
    Prepared { submission, patches: list.len(), operations }
}

fn apply(session: &mut ShellSession, number: u64, batch: &Prepared) {
    let envelope = OrderedProjectionPatchBatchEnvelope {
        session_id: ShellSessionId(1),
        sequence_no: number,
        patch_count: batch.patches,
        stimulus_bytes: 1,
    };
    let answer = session.apply_projection_patch_batch(envelope, batch.operations, &batch.submission);
    assert_eq!(answer.disposition, ProjectionPatchApplicationDisposition::Applied);
}

/// The session of the benchmark program, after its first batch.
fn filled(panel: &PanelSets) -> ShellSession {
    let limits = ShellSessionLimits {
        max_transition_stimulus_bytes: 1,
        max_diagnostics_per_transition: 1,
        max_patches_per_transition: 64,
        max_target_references_per_transition: 3120,
    };
    let nodes: Vec<u64> = (1..=bench_panels::NODES).collect();
    let bindings: Vec<(u64, u32)> = nodes.iter().map(|n| (*n, 1)).collect();
    let collections: Vec<u64> = (1..=bench_panels::COLLECTIONS).collect();
    let mut session = create_shell_session(1, limits, &glue::snapshot(&nodes, &bindings, &collections));
    apply(&mut session, 1, &prepare(&panel.fill));
    session
}

/// Nanoseconds of one batch of the original.
fn original_batch(panel: &PanelSets) -> f64 {
    let (forth, back) = (prepare(&panel.forth), prepare(&panel.back));
    least(|| {
        let mut session = filled(panel);
        let start = processor::own();
        for i in 0..CALLS {
            apply(&mut session, 2 * i + 2, black_box(&forth));
            apply(&mut session, 2 * i + 3, black_box(&back));
        }
        (processor::own() - start) / (2 * CALLS) as f64 * 1e9
    })
}

/// Nanoseconds of what the original does before a batch comes to the session: its constructors and the manifest.
fn admission(panel: &PanelSets) -> f64 {
    let one = |list: &Vec<RawPatch>| original(|| built(list), |b| prepare_patch_submission(admitted(glue::check(b))));
    (one(&panel.forth) + one(&panel.back)) / 2.0
}

/// Nanoseconds of a batch without patches, which the proved call copies in and out.
fn copies(program: &str, layout: Layout) -> f64 {
    proved(program, 'b', &bench_panels::data(&layout.panel(0))) / 2.0
}

/// Batches on sessions; the original's with and without its admission, which the proved call has inside. The last ratio is that of the time
/// over a batch without patches.
pub fn batches(program: &str, collections: u64) {
    println!("entries operations       proved     original  ratio    admitted  ratio       copies   over");
    for entries in ENTRIES {
        for operations in OPERATIONS {
            let layout = Layout { entries, collections };
            let panel = layout.panel(operations);
            let ours = proved(program, 'b', &bench_panels::data(&panel)) / 2.0;
            let bare = copies(program, layout);
            let theirs = original_batch(&panel);
            let whole = theirs + admission(&panel);
            println!(
                "{entries:7} {operations:10} {ours:9.0} ns {theirs:9.0} ns {:6.2} {whole:8.0} ns {:6.2} {bare:9.0} ns {:6.2}",
                ours / theirs,
                ours / whole,
                (ours - bare) / whole
            );
        }
    }
}

/// Batches on a session in lent memory, beside the original with its admission.
pub fn lent(program: &str, collections: u64) {
    println!("entries operations         lent     original  ratio    admitted  ratio");
    for entries in ENTRIES {
        for operations in OPERATIONS {
            let panel = Layout { entries, collections }.panel(operations);
            let ours = proved(program, 'l', &bench_panels::data(&panel)) / 2.0;
            let theirs = original_batch(&panel);
            let whole = theirs + admission(&panel);
            println!(
                "{entries:7} {operations:10} {ours:9.0} ns {theirs:9.0} ns {:6.2} {whole:8.0} ns {:6.2}",
                ours / theirs,
                ours / whole
            );
        }
    }
}

/// Nanoseconds of a batch in lent memory, by the call in Rattle and by the C call.
fn both_calls(rattle: &str, c: &str, panel: &PanelSets) -> [f64; 2] {
    proved_in_turn([rattle, c], 'l', &bench_panels::data(panel)).map(|both| both / 2.0)
}

/// The call in Rattle and the C call, beside the original with its admission. The first row is a batch without patches, which has little but the call.
pub fn lent_calls(rattle: &str, c: &str, collections: u64) {
    println!("entries operations       Rattle            C   C - Rattle    admitted  Rattle      C");
    let [ours, called] = both_calls(rattle, c, &Layout { entries: 0, collections }.panel(0));
    println!("      0          0 {ours:9.0} ns {called:9.0} ns {:9.0} ns", called - ours);
    for entries in ENTRIES {
        for operations in OPERATIONS {
            let panel = Layout { entries, collections }.panel(operations);
            let [ours, called] = both_calls(rattle, c, &panel);
            let whole = original_batch(&panel) + admission(&panel);
            println!(
                "{entries:7} {operations:10} {ours:9.0} ns {called:9.0} ns {:9.0} ns {whole:8.0} ns {:7.2} {:6.2}",
                called - ours,
                ours / whole,
                called / whole
            );
        }
    }
}

fn original_set(panel: &PanelSets) -> f64 {
    let batch = |list: &[RawPatch]| admitted(glue::check(built(list)));
    let (fill, forth, back) = (batch(&panel.fill), batch(&panel.forth), batch(&panel.back));
    least(|| {
        let mut state: LocalProjectionStateHandle =
            glue::apply_batch(&initial_local_projection_state(), &fill).expect("the first set applies");
        let start = processor::own();
        for _ in 0..CALLS {
            state = glue::apply_batch(black_box(&state), &forth).expect("the set applies");
            state = glue::apply_batch(black_box(&state), &back).expect("the set applies");
        }
        (processor::own() - start) / (2 * CALLS) as f64 * 1e9
    })
}

/// One operation in place, averaged over 128 of the six kinds; the original's loop without its copy of the state.
pub fn operation(program: &str, collections: u64) {
    for entries in [32, 120] {
        let layout = Layout { entries, collections };
        let panel = layout.panel(128);
        let ours = proved(program, 'o', &bench_panels::data(&panel)) / 128.0;
        let theirs = (original_set(&panel) - original_set(&layout.panel(0))) / 128.0;
        show(&format!("an operation at {entries} entries"), ours, theirs);
    }
}

fn original_lookup<A>(look_up: impl Fn(&ShellSession, u64) -> A) -> f64 {
    let session = filled(&bench_panels::full());
    least(|| {
        let start = processor::own();
        for i in 0..4 * CALLS {
            black_box(look_up(black_box(&session), i));
        }
        (processor::own() - start) / (4 * CALLS) as f64 * 1e9
    })
}

/// Look-ups in a full session.
pub fn lookups(program: &str) {
    let data = bench_panels::data(&bench_panels::full());
    let binding = original_lookup(|s, i| s.binding_value(i % 64 + 1, 1));
    show("a binding", proved(program, 'v', &data), binding);
    let node = original_lookup(|s, i| s.node_availability(i % 64 + 1));
    show("an availability", proved(program, 'a', &data), node);
    let entry = |s: &ShellSession, i: u64| {
        let key = i % 30 * 4 + 4;
        s.collection_entries(1).into_iter().find(|(k, _)| *k == key)
    };
    show("an entry", proved(program, 'e', &data), original_lookup(entry));
}

/// The keys of the benchmark program's pages: 64 of 1 to 120, no two of them equal.
fn page_keys() -> Vec<u64> {
    (0..64).map(|i| i * 17 % 120 + 1).collect()
}

/// Position and value of each key, by one call for all entries and a search for each key.
fn original_page(session: &ShellSession, keys: &[u64]) -> Vec<Option<(usize, BridgeValue)>> {
    let entries = session.collection_entries(1);
    let find = |key: &u64| {
        let at = entries.iter().position(|(k, _)| k == key)?;
        Some((at, entries[at].1.clone()))
    };
    keys.iter().map(find).collect()
}

/// The same by one call for all entries for each key.
fn original_singly(session: &ShellSession, keys: &[u64]) -> Vec<Option<(u64, BridgeValue)>> {
    keys.iter().map(|key| session.collection_entries(1).into_iter().find(|(k, _)| k == key)).collect()
}

fn one_collection() -> PanelSets {
    Layout { entries: 120, collections: 1 }.panel(0)
}

/// 64 keys among 120 entries of one collection, together and singly, on the proved side also with each row taken apart.
pub fn pages(program: &str) {
    let panel = one_collection();
    let data = bench_panels::data(&panel);
    let session = filled(&panel);
    let keys = page_keys();
    let theirs = original(|| (), |_| original_page(black_box(&session), black_box(&keys)));
    show("a page", proved(program, 'p', &data), theirs);
    show("a page, its rows taken apart", proved(program, 'x', &data), theirs);
    let singly = original(|| (), |_| original_singly(black_box(&session), black_box(&keys)));
    show("64 single look-ups", proved(program, 's', &data), singly);
}

/// So many pages of the original, whose instructions are counted.
pub fn pages_often(times: u64) {
    let session = filled(&one_collection());
    let keys = page_keys();
    for _ in 0..times {
        black_box(original_page(black_box(&session), black_box(&keys)));
    }
}

/// A text of 160 bytes, whose first is changed at each use.
fn repeated(character: char) -> Vec<u8> {
    let mut text = String::from("0");
    while text.len() + character.len_utf8() <= 160 {
        text.push(character);
    }
    while text.len() < 160 {
        text.push('.');
    }
    text.into_bytes()
}

fn original_text(text: &[u8]) -> f64 {
    let mut text = text.to_vec();
    let mut run = || {
        let start = processor::own();
        for i in 0..10 * CALLS {
            text[0] = b'0' + (i % 8) as u8;
            black_box(std::str::from_utf8(black_box(&text)).is_ok());
        }
        (processor::own() - start) / (10 * CALLS) as f64 * 1e9
    };
    (0..7).map(|_| run()).fold(f64::INFINITY, f64::min)
}

/// The UTF-8 check, beside std's.
pub fn texts(program: &str) {
    for (name, character) in [("ASCII", 'a'), ("Greek", 'λ'), ("Japanese", '締')] {
        let text = repeated(character);
        show(&format!("160 bytes, {name}"), proved(program, 't', &text), original_text(&text));
    }
}

/// Writing of a patch of 128 bindings with a text each.
pub fn writing(program: &str) {
    let list = bench_sets::bindings();
    let batch = admitted(glue::check(built(&list)));
    let theirs = original(|| (), |_| glue::canonical_bytes(&batch));
    let bytes = glue::canonical_bytes(&batch).len();
    show(&format!("write {bytes} bytes"), proved(program, 'w', bench_sets::ASCII.as_bytes()), theirs);
}
