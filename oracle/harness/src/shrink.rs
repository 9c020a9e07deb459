//! The smallest script that still differs: first whole lines are dropped, then operations of its sets.
use prom_ui::shell_bridge::glue::RawPatch;

use crate::decode::decode;
use crate::script::{Batch, Command};
use crate::sets;

/// Drops runs of commands, long ones first, so long as what is left differs.
fn fewer_commands(script: &mut Vec<Command>, differs: &mut impl FnMut(&[Command]) -> bool) {
    let mut run = script.len() / 2;
    while run > 0 {
        let mut at = 0;
        while at < script.len() {
            let mut shorter = script.clone();
            shorter.drain(at..(at + run).min(script.len()));
            if differs(&shorter) {
                *script = shorter;
            } else {
                at += run;
            }
        }
        run /= 2;
    }
}

fn operation_count(patches: &[RawPatch]) -> u64 {
    patches.iter().map(|p| p.operations.len() as u64).sum()
}

/// The command with another list of patches; counts that were declared change as the true ones do.
fn with_patches(command: &Command, before: &[RawPatch], after: &[RawPatch]) -> Command {
    let set = sets::encode(after);
    match command {
        Command::Batch(batch) => Command::Batch(Batch {
            patches: batch.patches.wrapping_sub((before.len() - after.len()) as u64),
            references: batch.references.wrapping_sub(operation_count(before) - operation_count(after)),
            set,
            ..batch.clone()
        }),
        Command::List(_) => Command::List(set),
        _ => Command::Check(set),
    }
}

/// The list without a run of its operations; a patch that loses all of them goes too.
fn without(patches: &[RawPatch], from: u64, run: u64) -> Vec<RawPatch> {
    let (mut list, mut number) = (patches.to_vec(), 0);
    for patch in &mut list {
        patch.operations.retain(|_| {
            number += 1;
            number <= from || number > from + run
        });
    }
    let kept = |(before, after): &(&RawPatch, RawPatch)| before.operations.is_empty() || !after.operations.is_empty();
    patches.iter().zip(list).filter(kept).map(|(_, after)| after).collect()
}

/// Drops runs of operations from one command's set, long ones first, so long as the script differs.
fn fewer_operations(script: &mut [Command], at: usize, differs: &mut impl FnMut(&[Command]) -> bool) {
    let Some(mut patches) = script[at].set().and_then(decode) else { return };
    let mut run = operation_count(&patches).div_ceil(2);
    while run > 0 {
        let mut from = 0;
        while from < operation_count(&patches) {
            let fewer = without(&patches, from, run);
            let before = std::mem::replace(&mut script[at], Command::Show);
            script[at] = with_patches(&before, &patches, &fewer);
            if differs(script) {
                patches = fewer;
            } else {
                script[at] = before;
                from += run;
            }
        }
        run /= 2;
    }
}

/// A script from which no command can be dropped, nor an operation of its sets.
pub fn shrink(mut script: Vec<Command>, mut differs: impl FnMut(&[Command]) -> bool) -> Vec<Command> {
    loop {
        let length = script.len();
        fewer_commands(&mut script, &mut differs);
        (0..script.len()).for_each(|at| fewer_operations(&mut script, at, &mut differs));
        if script.len() == length {
            return script;
        }
    }
}

#[cfg(test)]
mod tests {
    use super::{operation_count, shrink};
    use crate::decode::decode;
    use crate::generate::{sessions, Scale};
    use crate::rng::Rng;
    use crate::script::Command;
    use crate::tally::Tally;

    fn batches(script: &[Command]) -> Vec<&Command> {
        script.iter().filter(|command| matches!(command, Command::Batch(_))).collect()
    }

    /// Pretends that a script differs if a look-up stands behind two batches of three operations or more.
    fn differs(script: &[Command]) -> bool {
        let Some(last) = script.iter().rposition(|command| matches!(command, Command::ValueNode(_))) else {
            return false;
        };
        let large = |command: &&&Command| operation_count(&decode(command.set().unwrap()).unwrap()) >= 3;
        batches(&script[..last]).iter().filter(large).count() >= 2
    }

    #[test]
    fn leaves_what_the_difference_needs() {
        let script = sessions::session(&mut Rng::new(4), Scale::Full, &mut Tally::default()).commands;
        assert!(differs(&script));
        let small = shrink(script, differs);
        assert_eq!((small.len(), batches(&small).len()), (3, 2));
        for command in batches(&small) {
            let Command::Batch(batch) = command else { unreachable!() };
            let patches = decode(&batch.set).unwrap();
            assert_eq!(operation_count(&patches), 3);
        }
    }
}
