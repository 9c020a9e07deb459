//! The original's answers to the commands of a replay script. Every answer comes from its own calls; where it has no
//! counterpart, the command is outside its domain and there is no answer.
use prom_ui::shell_bridge::glue::{self, RawPatch};
use prom_ui::shell_bridge::prepare_patch_submission;
use prom_ui_runtime::shell_player::*;

use crate::listing::{self, Places};
use crate::panel::{Panel, Step};
use crate::printing::{print_availability, print_batch_answer, print_lifecycle_answer, print_lookup};
use crate::script::{Batch, Command, Limits};
use crate::set_calls::{admitted, check, has_room, list};

const ANCHORS: usize = 128;

/// Why the original has no answer to a command.
#[derive(Debug, Clone, Copy, PartialEq, Eq)]
pub struct Outside(pub &'static str);

pub type Answered = Result<(), Outside>;

/// The session's id, limits and anchors as the script gives them, 129 anchors of a kind at most.
#[derive(Debug, Clone, Default)]
pub struct Setup {
    pub id: u64,
    pub limits: Limits,
    pub nodes: Vec<u64>,
    pub bindings: Vec<(u64, u32)>,
    pub collections: Vec<u64>,
}

pub struct Current {
    pub setup: Setup,
    pub session: ShellSession,
    pub panel: Panel,
    places: Places,
}

#[derive(Default)]
pub struct Original {
    setup: Setup,
    current: Option<Current>,
}

fn keep<T>(list: &mut Vec<T>, anchor: T) {
    if list.len() <= ANCHORS {
        list.push(anchor);
    }
}

impl Current {
    fn create(setup: &Setup) -> Result<Self, Outside> {
        if setup.nodes.len().max(setup.bindings.len()).max(setup.collections.len()) > ANCHORS {
            return Err(Outside("more than 128 anchors of a kind (13)"));
        }
        let limits = ShellSessionLimits {
            max_transition_stimulus_bytes: setup.limits.bytes as usize,
            max_diagnostics_per_transition: setup.limits.diagnostics as usize,
            max_patches_per_transition: setup.limits.patches as usize,
            max_target_references_per_transition: setup.limits.references as usize,
        };
        let snapshot = glue::snapshot(&setup.nodes, &setup.bindings, &setup.collections);
        let places = Places {
            nodes: setup.nodes.iter().copied().collect(),
            bindings: setup.bindings.iter().copied().collect(),
            collections: setup.collections.iter().copied().collect(),
        };
        let session = create_shell_session(setup.id, limits, &snapshot);
        Ok(Current { setup: setup.clone(), session, panel: Panel::default(), places })
    }

    fn apply(&mut self, stimulus: ShellLifecycleStimulus, bytes: u64, out: &mut Vec<u8>) {
        let answer = self.session.apply(ShellTransitionInput { stimulus, stimulus_bytes: bytes as usize });
        assert_eq!(&answer.state, self.session.state());
        print_lifecycle_answer(&answer, out);
    }

    fn batch(&mut self, batch: &Batch, out: &mut Vec<u8>) -> Answered {
        let (patches, admitted) = admitted(&batch.set)?;
        let submission = prepare_patch_submission(admitted).expect("indices fit a u64");
        let envelope = OrderedProjectionPatchBatchEnvelope {
            session_id: ShellSessionId(batch.id),
            sequence_no: batch.sequence,
            patch_count: batch.patches as usize,
            stimulus_bytes: batch.bytes as usize,
        };
        let room = has_room(&self.panel, &patches);
        let answer = self.session.apply_projection_patch_batch(envelope, batch.references as usize, &submission);
        if !room && !answer.diagnostics.first().is_some_and(|first| first.evaluation_stage < 8) {
            return Err(Outside("the projection does not hold so much (9)"));
        }
        self.note(&answer, &patches);
        assert_eq!(answer.replay_cursor, self.session.replay_cursor());
        print_batch_answer(&answer, out);
        Ok(())
    }

    /// Takes an applied batch over into the places, which must agree with the original.
    fn note(&mut self, answer: &ProjectionPatchApplicationResult, patches: &[RawPatch]) {
        if answer.disposition == ProjectionPatchApplicationDisposition::Applied {
            for operation in patches.iter().flat_map(|p| &p.operations) {
                assert_eq!(self.panel.apply(operation), Step::Fits);
            }
        }
    }

    fn show(&self, out: &mut Vec<u8>) {
        let shown = listing::print(&self.session, &self.places, out);
        assert_eq!(shown, self.panel.bindings.len() + self.panel.nodes.len() + self.panel.entries);
    }
}

impl Original {
    /// The session that stands, if there is one.
    pub fn current(&self) -> Option<&Current> {
        self.current.as_ref()
    }

    fn session(&mut self) -> Result<&mut Current, Outside> {
        self.current.as_mut().ok_or(Outside("there is no session (the format's own N)"))
    }

    /// Writes the original's answer, or says why it has none.
    pub fn answer(&mut self, command: &Command, out: &mut Vec<u8>) -> Answered {
        match command {
            Command::Session(id, limits) => self.setup = Setup { id: *id, limits: *limits, ..Setup::default() },
            Command::Node(node) => keep(&mut self.setup.nodes, *node),
            Command::Binding(node, slot) => keep(&mut self.setup.bindings, (*node, *slot)),
            Command::Collection(collection) => keep(&mut self.setup.collections, *collection),
            Command::Create => {
                self.current = None;
                self.current = Some(Current::create(&self.setup)?);
                out.extend(b"S\t0\n");
            }
            Command::Apply(stimulus, bytes) => self.session()?.apply(*stimulus, *bytes, out),
            Command::Batch(batch) => self.session()?.batch(batch, out)?,
            Command::Check(set) => check(set, out)?,
            Command::List(set) => list(set, out)?,
            Command::Show => self.session()?.show(out),
            Command::ValueBinding(node, slot) => print_lookup(self.session()?.session.binding_value(*node, *slot), out),
            Command::ValueNode(node) => self.node_value(*node, out)?,
            Command::ValueEntry(collection, key) => self.entry_value(*collection, *key, out)?,
        }
        Ok(())
    }

    fn node_value(&mut self, node: u64, out: &mut Vec<u8>) -> Answered {
        print_availability(self.session()?.session.node_availability(node), out);
        Ok(())
    }

    fn entry_value(&mut self, collection: u64, key: u64, out: &mut Vec<u8>) -> Answered {
        let entries = self.session()?.session.collection_entries(collection);
        print_lookup(entries.into_iter().find(|(k, _)| *k == key).map(|(_, value)| value), out);
        Ok(())
    }
}

#[cfg(test)]
mod tests;
