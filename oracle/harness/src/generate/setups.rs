//! Session set-ups: an id, limits at their edges and beyond the capacities, and anchors of each kind.
use super::numbers;
use super::operations::{Steering, Targets};
use super::Scale;
use crate::original::Setup;
use crate::rng::Rng;
use crate::script::{Command, Limits};

fn anchor_count(rng: &mut Rng, scale: Scale) -> u64 {
    let ranges: &[(u64, (u64, u64))] = match scale {
        Scale::Full => &[(2, (0, 0)), (4, (1, 1)), (60, (2, 8)), (20, (9, 40)), (10, (41, 127)), (4, (128, 128))],
        Scale::Compact => &[(2, (0, 0)), (10, (1, 1)), (87, (2, 5)), (1, (128, 128))],
    };
    let (least, most) = rng.weighted(ranges);
    rng.between(least, most)
}

fn limits(rng: &mut Rng) -> Limits {
    let bytes = rng.pick(&[0, 1, 100, 4_096, 32_768, u64::MAX - 1, u64::MAX]);
    let diagnostics = rng.weighted(&[(7, 0), (25, 1), (15, 2), (10, 3), (10, 5), (15, 64), (10, 8_192), (8, u64::MAX)]);
    let patches = rng.weighted(&[(1, 0), (8, 1), (6, 2), (6, 5), (55, 64), (12, 65), (12, u64::MAX)]);
    let references =
        rng.weighted(&[(1, 0), (2, 1), (4, 3), (8, 12), (8, 40), (7, 128), (40, 1_024), (15, 8_192), (15, u64::MAX)]);
    Limits { bytes, diagnostics, patches, references }
}

pub fn setup(rng: &mut Rng, scale: Scale) -> Setup {
    let nodes = (0..anchor_count(rng, scale)).map(|_| anchor(rng)).collect();
    let bindings = (0..anchor_count(rng, scale)).map(|_| (anchor(rng), numbers::slot(rng))).collect();
    let collections = (0..anchor_count(rng, scale)).map(|_| anchor(rng)).collect();
    Setup { id: numbers::any(rng), limits: limits(rng), nodes, bindings, collections }
}

/// An anchor, rarely 0, which no operation of the domain names.
fn anchor(rng: &mut Rng) -> u64 {
    if rng.percent(1) {
        0
    } else {
        numbers::id(rng)
    }
}

pub fn commands(setup: &Setup) -> Vec<Command> {
    let mut commands = vec![Command::Session(setup.id, setup.limits)];
    commands.extend(setup.nodes.iter().map(|node| Command::Node(*node)));
    commands.extend(setup.bindings.iter().map(|(node, slot)| Command::Binding(*node, *slot)));
    commands.extend(setup.collections.iter().map(|collection| Command::Collection(*collection)));
    commands.push(Command::Create);
    commands
}

/// Where the operations of a session's batches tend to: mostly to panels of 32 entries and more, up to full ones.
pub fn steering(rng: &mut Rng, setup: &Setup, scale: Scale) -> Steering {
    let targets = Targets {
        nodes: setup.nodes.iter().copied().filter(|node| *node > 0).collect(),
        bindings: setup.bindings.iter().copied().filter(|(node, _)| *node > 0).collect(),
        collections: setup.collections.iter().copied().filter(|collection| *collection > 0).collect(),
    };
    let (least, most) = match scale {
        Scale::Full => rng.weighted(&[(12, (0, 12)), (70, (40, 120)), (18, (121, 136))]),
        Scale::Compact => rng.weighted(&[(10, (0, 8)), (88, (40, 44)), (2, (130, 136))]),
    };
    Steering { targets, aim: rng.between(least, most) as usize, scale }
}
