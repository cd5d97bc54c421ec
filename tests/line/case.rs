//! A line and all that it is lent.

use crate::files::{reached, recorded};
use crate::model::chip::{Refusal, State};
use crate::model::line::Lent;
use crate::model::reads::{reads, Reads};
use crate::model::step::{NORMAL_BYTES, OVERLAY_BYTES};
use crate::model::windows::TABLE_BYTES;

/// A control word of two fields.
pub fn fields(low: u32, high: u32) -> u32 {
    low | high << 16
}

#[derive(Clone)]
pub struct Case {
    pub state: State,
    pub y: u32,
    pub store: Vec<u32>,
    pub table: Vec<u8>,
    pub normal: Vec<u8>,
    pub overlay: Vec<u8>,
    pub output: Vec<u32>,
}

impl Case {
    /// What the model answers, and what it leaves in the output.
    pub fn of_model(&self) -> (Result<(), Refusal>, Vec<u32>) {
        let mut output = self.output.clone();
        let answer = self.state.line(self.y, self.lent(), &mut output);
        assert!(answer.is_ok() || output == self.output, "the model drew a refused line");
        (answer, output)
    }

    /// What the answer may rest on, by the model.
    pub fn reads(&self) -> Reads {
        reads(&self.state, self.y, self.lent(), self.output.len())
    }

    /// The same case with zeros in all that isn't read.
    pub fn read_alone(&self) -> Self {
        let reads = self.reads();
        let kept = |part: &[u8], masks: &[u8]| part.iter().zip(masks).map(|(byte, mask)| byte & mask).collect();
        Self {
            store: self.store.iter().zip(&reads.store).map(|(word, mask)| word & mask).collect(),
            table: kept(&self.table, &reads.table),
            normal: kept(&self.normal, &reads.normal),
            overlay: kept(&self.overlay, &reads.overlay),
            ..self.clone()
        }
    }

    /// The case as records of a session. None where it is lent what no session lends; of the store only kept bits count.
    pub fn records(&self) -> Option<Vec<Vec<u8>>> {
        let Self { state, y, store, table, normal, overlay, output: _ } = self;
        if table.len() > TABLE_BYTES || normal.len() > NORMAL_BYTES || overlay.len() > OVERLAY_BYTES {
            return None;
        }
        let line = recorded::line(u16::try_from(*y).ok()?);
        let mut records = reached::records(state, store)?;
        records.extend(table.chunks(usize::from(u16::MAX)).map(recorded::table));
        records.extend([recorded::normal(normal), recorded::overlay(overlay), line, recorded::END.to_vec()]);
        Some(records)
    }

    pub fn width(&self) -> u32 {
        (self.state.control[7] & 0x7FF) + 1
    }

    fn lent(&self) -> Lent<'_> {
        Lent { store: &self.store, table: &self.table, normal: &self.normal, overlay: &self.overlay }
    }
}
