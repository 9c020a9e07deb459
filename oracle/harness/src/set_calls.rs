//! The calls that take a set and no session: the patch checks and the listing.
use std::io::Write;

use prom_ui::shell_bridge::glue::{self, Checked, RawFinding, RawPatch};
use prom_ui::shell_bridge::{initial_local_projection_state, AdmittedProjectionPatchBatch};

use crate::codes;
use crate::decode::decode;
use crate::listing::{self, Places};
use crate::original::{Answered, Outside};
use crate::panel::{Panel, Step, AVAILABILITIES, BINDINGS, ENTRIES};

/// A set's patches and what the original's constructors say of them.
fn checked(set: &[u8]) -> Result<(Vec<RawPatch>, Checked), Outside> {
    let patches = decode(set).ok_or(Outside("the set is not readable (10 or 12)"))?;
    let built = patches.iter().map(glue::build).collect::<Option<Vec<_>>>();
    let checked = glue::check(built.ok_or(Outside("an id of 0 stands in the set"))?);
    if let Checked::Admitted(batch) = &checked {
        assert_eq!(glue::canonical_bytes(batch), set, "the original writes another set");
    }
    Ok((patches, checked))
}

pub fn admitted(set: &[u8]) -> Result<(Vec<RawPatch>, AdmittedProjectionPatchBatch), Outside> {
    match checked(set)? {
        (patches, Checked::Admitted(batch)) => Ok((patches, batch)),
        _ => Err(Outside("the patch checks find something (11)")),
    }
}

fn print_findings(findings: &[RawFinding], out: &mut Vec<u8>) {
    for (code, domain, secondary) in findings {
        writeln!(out, "F\t{}\t{domain}\t{secondary}", codes::finding_number(code)).unwrap();
    }
}

pub fn check(set: &[u8], out: &mut Vec<u8>) -> Answered {
    match checked(set)?.1 {
        Checked::Admitted(_) => writeln!(out, "K\t0\tset\t0").unwrap(),
        Checked::InPatch(index, findings) => {
            writeln!(out, "K\t0\t{index}\t{}", findings.len()).unwrap();
            print_findings(&findings, out);
        }
        Checked::InSet(findings) => {
            writeln!(out, "K\t0\tset\t{}", findings.len()).unwrap();
            print_findings(&findings, out);
        }
    }
    Ok(())
}

/// Whether the operations, up to the first that breaks a rule, find room on a panel.
pub fn has_room(panel: &Panel, patches: &[RawPatch]) -> bool {
    let operations: usize = patches.iter().map(|p| p.operations.len()).sum();
    let places = panel.entries.max(panel.bindings.len() + ENTRIES - BINDINGS);
    if places.max(panel.nodes.len() + ENTRIES - AVAILABILITIES) + operations <= ENTRIES {
        return true;
    }
    let mut after = panel.clone();
    let first_stop = patches.iter().flat_map(|p| &p.operations).map(|o| after.apply(o)).find(|s| *s != Step::Fits);
    first_stop != Some(Step::Overfull)
}

pub fn list(set: &[u8], out: &mut Vec<u8>) -> Answered {
    let (patches, batch) = admitted(set)?;
    if !has_room(&Panel::default(), &patches) {
        return Err(Outside("the projection does not hold so much (9)"));
    }
    match glue::apply_batch(&initial_local_projection_state(), &batch) {
        None => writeln!(out, "E\t8").unwrap(),
        Some(projection) => {
            listing::print(&projection, &Places::of(&patches), out);
        }
    }
    Ok(())
}
