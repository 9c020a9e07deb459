//! The commands of a replay script, printed and read line by line.
use std::io::Write;

use prom_ui_runtime::shell_player::{ShellLifecycleCommand, ShellLifecycleStimulus};

use crate::hex;

const LONGEST_LINE: usize = 131_072;

pub const STIMULI: [(&str, ShellLifecycleStimulus); 5] = [
    ("activate", ShellLifecycleStimulus::Command(ShellLifecycleCommand::Activate)),
    ("suspend", ShellLifecycleStimulus::Command(ShellLifecycleCommand::Suspend)),
    ("resume", ShellLifecycleStimulus::Command(ShellLifecycleCommand::Resume)),
    ("close", ShellLifecycleStimulus::Command(ShellLifecycleCommand::Close)),
    ("noop", ShellLifecycleStimulus::ExplicitNoOp),
];

#[derive(Debug, Clone, Copy, PartialEq, Eq, Default)]
pub struct Limits {
    pub bytes: u64,
    pub diagnostics: u64,
    pub patches: u64,
    pub references: u64,
}

#[derive(Debug, Clone, PartialEq, Eq)]
pub struct Batch {
    pub id: u64,
    pub sequence: u64,
    pub patches: u64,
    pub bytes: u64,
    pub references: u64,
    pub set: Vec<u8>,
}

#[derive(Debug, Clone, PartialEq, Eq)]
pub enum Command {
    Session(u64, Limits),
    Node(u64),
    Binding(u64, u32),
    Collection(u64),
    Create,
    Apply(ShellLifecycleStimulus, u64),
    Batch(Batch),
    Check(Vec<u8>),
    List(Vec<u8>),
    Show,
    ValueBinding(u64, u32),
    ValueNode(u64),
    ValueEntry(u64, u64),
}

impl Command {
    /// Whether the command is answered, and so counts as a call.
    pub fn is_call(&self) -> bool {
        !matches!(self, Self::Session(..) | Self::Node(_) | Self::Binding(..) | Self::Collection(_))
    }

    pub fn print(&self, out: &mut Vec<u8>) {
        match self {
            Self::Session(id, l) => {
                write!(out, "session {id} {} {} {} {}", l.bytes, l.diagnostics, l.patches, l.references)
            }
            Self::Node(node) => write!(out, "node {node}"),
            Self::Binding(node, slot) => write!(out, "binding {node} {slot}"),
            Self::Collection(collection) => write!(out, "collection {collection}"),
            Self::Create => write!(out, "create"),
            Self::Apply(stimulus, bytes) => write!(out, "apply {} {bytes}", stimulus_name(*stimulus)),
            Self::Batch(b) => write!(out, "batch {} {} {} {} {} ", b.id, b.sequence, b.patches, b.bytes, b.references),
            Self::Check(_) => write!(out, "check "),
            Self::List(_) => write!(out, "list "),
            Self::Show => write!(out, "show"),
            Self::ValueBinding(node, slot) => write!(out, "value binding {node} {slot}"),
            Self::ValueNode(node) => write!(out, "value node {node}"),
            Self::ValueEntry(collection, key) => write!(out, "value entry {collection} {key}"),
        }
        .unwrap();
        if let Some(set) = self.set() {
            hex::write(set, out);
        }
        out.push(b'\n');
    }

    pub fn set(&self) -> Option<&[u8]> {
        match self {
            Self::Batch(batch) => Some(&batch.set),
            Self::Check(set) | Self::List(set) => Some(set),
            _ => None,
        }
    }
}

fn stimulus_name(stimulus: ShellLifecycleStimulus) -> &'static str {
    STIMULI.iter().find(|(_, s)| *s == stimulus).unwrap().0
}

fn stimulus(field: &[u8]) -> Option<ShellLifecycleStimulus> {
    STIMULI.iter().find(|(name, _)| name.as_bytes() == field).map(|(_, s)| *s)
}

/// Decimal digits without sign or leading zero.
fn number(field: &[u8]) -> Option<u64> {
    let plain = field.iter().all(u8::is_ascii_digit) && (field.len() == 1 || field.first() != Some(&b'0'));
    if !plain {
        return None;
    }
    std::str::from_utf8(field).ok()?.parse().ok()
}

fn slot(field: &[u8]) -> Option<u32> {
    number(field)?.try_into().ok()
}

fn batch(fields: &[&[u8]; 6]) -> Option<Command> {
    Some(Command::Batch(Batch {
        id: number(fields[0])?,
        sequence: number(fields[1])?,
        patches: number(fields[2])?,
        bytes: number(fields[3])?,
        references: number(fields[4])?,
        set: hex::read(fields[5])?,
    }))
}

fn session(fields: &[&[u8]; 5]) -> Option<Command> {
    let [id, bytes, diagnostics, patches, references] = fields.map(number);
    let limits = Limits { bytes: bytes?, diagnostics: diagnostics?, patches: patches?, references: references? };
    Some(Command::Session(id?, limits))
}

/// Whether a line without its LF is empty or a comment, and no longer than lines may be.
pub fn is_silent(line: &[u8]) -> bool {
    line.is_empty() || line.starts_with(b"#") && line.len() <= LONGEST_LINE
}

/// The command of a line without its LF, or none for any other line.
pub fn parse(line: &[u8]) -> Option<Command> {
    if line.len() > LONGEST_LINE {
        return None;
    }
    let fields: Vec<&[u8]> = line.split(|c| *c == b' ').collect();
    Some(match fields.as_slice() {
        [b"session", rest @ ..] => session(rest.try_into().ok()?)?,
        [b"node", node] => Command::Node(number(node)?),
        [b"binding", node, s] => Command::Binding(number(node)?, slot(s)?),
        [b"collection", collection] => Command::Collection(number(collection)?),
        [b"create"] => Command::Create,
        [b"apply", command, bytes] => Command::Apply(stimulus(command)?, number(bytes)?),
        [b"batch", rest @ ..] => batch(rest.try_into().ok()?)?,
        [b"check", set] => Command::Check(hex::read(set)?),
        [b"list", set] => Command::List(hex::read(set)?),
        [b"show"] => Command::Show,
        [b"value", b"binding", node, s] => Command::ValueBinding(number(node)?, slot(s)?),
        [b"value", b"node", node] => Command::ValueNode(number(node)?),
        [b"value", b"entry", collection, key] => Command::ValueEntry(number(collection)?, number(key)?),
        _ => return None,
    })
}

#[cfg(test)]
mod tests {
    use super::parse;
    use crate::generate::{edges, sessions, Scale};
    use crate::rng::Rng;
    use crate::tally::Tally;

    #[test]
    fn reads_what_it_prints() {
        let mut tally = Tally::default();
        let mut scripts = edges::edges(Scale::Compact, &mut tally);
        scripts.extend((0..20).map(|i| sessions::session(&mut Rng::new(i), Scale::Full, &mut tally)));
        for command in scripts.iter().flat_map(|script| &script.commands) {
            let mut line = Vec::new();
            command.print(&mut line);
            assert_eq!(parse(line.strip_suffix(b"\n").unwrap()).as_ref(), Some(command));
        }
    }

    #[test]
    fn refuses_other_lines() {
        let lines = [
            "",
            " ",
            "show ",
            " show",
            "shows",
            "node",
            "node 01",
            "node +1",
            "node -1",
            "node 18446744073709551616",
            "node  1",
            "node 1 2",
            "binding 1 4294967296",
            "apply open 0",
            "batch 1 1 1 1 1 0",
            "batch 1 1 1 1 1",
            "check",
            "check 0A",
            "value 1 2",
            "session 1 2 3 4",
            "session 1 2 3 4 5 6",
            "create\r",
        ];
        for line in lines {
            assert_eq!(parse(line.as_bytes()), None, "{line}");
        }
    }
}
