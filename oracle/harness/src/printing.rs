//! The answers of the original's session as lines of a replay.
use std::io::Write;

use prom_ui::shell_bridge::{BridgeAvailability, BridgeValue};
use prom_ui_runtime::shell_player::*;

use crate::{codes, listing, sets};

/// Code, stage, logical and emitted count, each with a tab before it.
fn print_diagnostics(diagnostics: &[ShellDiagnostic], logical: usize, emitted: usize, out: &mut Vec<u8>) {
    assert!(diagnostics.len() == emitted && diagnostics.windows(2).all(|pair| pair[0] == pair[1]));
    let (code, stage) = match diagnostics.first() {
        None => (0, 0),
        Some(first) => (codes::session_number(first.stable_code), first.evaluation_stage),
    };
    write!(out, "\t{code}\t{stage}\t{logical}\t{emitted}").unwrap();
}

fn print_cursor(cursor: ProjectionReplayCursor, out: &mut Vec<u8>) {
    match cursor {
        ProjectionReplayCursor::Uninitialized => write!(out, "\t-"),
        ProjectionReplayCursor::At(number) => write!(out, "\t{number}"),
    }
    .unwrap();
}

fn lifecycle_name(lifecycle: ShellLifecycle) -> &'static str {
    match lifecycle {
        ShellLifecycle::Created => "created",
        ShellLifecycle::Active => "active",
        ShellLifecycle::Suspended => "suspended",
        ShellLifecycle::Closed => "closed",
    }
}

pub fn print_lifecycle_answer(answer: &ShellTransitionResult, out: &mut Vec<u8>) {
    let disposition = match answer.disposition {
        ShellTransitionDisposition::Applied => "applied",
        ShellTransitionDisposition::NoChange => "no-change",
        ShellTransitionDisposition::Rejected => "rejected",
    };
    write!(out, "L\t{disposition}").unwrap();
    let (logical, emitted) = (answer.logical_diagnostic_count, answer.emitted_diagnostic_count);
    print_diagnostics(&answer.diagnostics, logical, emitted, out);
    write!(out, "\t{}", lifecycle_name(answer.state.lifecycle)).unwrap();
    print_cursor(answer.state.replay_cursor, out);
    writeln!(out, "\t{}", answer.stimulus_bytes).unwrap();
}

pub fn print_batch_answer(answer: &ProjectionPatchApplicationResult, out: &mut Vec<u8>) {
    let disposition = match answer.disposition {
        ProjectionPatchApplicationDisposition::Applied => "applied",
        ProjectionPatchApplicationDisposition::NoChange => "no-change",
        ProjectionPatchApplicationDisposition::Rejected => "rejected",
    };
    write!(out, "R\t{disposition}").unwrap();
    let (logical, emitted) = (answer.logical_diagnostic_count, answer.emitted_diagnostic_count);
    print_diagnostics(&answer.diagnostics, logical, emitted, out);
    print_cursor(answer.replay_cursor, out);
    out.push(b'\n');
}

pub fn print_lookup(value: Option<BridgeValue>, out: &mut Vec<u8>) {
    out.extend(b"V\t");
    match value {
        None => out.extend(b"-\n"),
        Some(value) => listing::print_value(&value, out),
    }
}

pub fn print_availability(availability: Option<BridgeAvailability>, out: &mut Vec<u8>) {
    match availability {
        None => out.extend(b"V\t-\n"),
        Some(availability) => writeln!(out, "V\tA\t{}", sets::availability_tag(availability)).unwrap(),
    }
}
