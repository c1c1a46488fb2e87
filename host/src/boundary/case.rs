//! A call with each of its slices at a place in memory.

use std::fmt::{self, Display, Formatter};

use super::placed::{Placed, Spot};
use crate::Random;
use crate::calls::Calls;
use crate::comparison::lent::{Difference, hexadecimal, lend_between, same};
use crate::reference::calls::{self, Draft};
use crate::reference::tips;

/// The call that is made.
#[derive(Debug, Clone, Copy, PartialEq, Eq)]
pub enum Call {
    /// `tilghorz_format`.
    Format,
    /// `tilghorz_list`.
    List,
    /// `tilghorz_mend`, at this offset.
    Mend(u64),
    /// `tilghorz_scan`.
    Scan,
    /// `tilghorz_repair`.
    Repair,
    /// `tilghorz_tips`.
    Tips,
}

/// The inputs of a call. One that the call does not take stands there all the same, and must stay as it is.
#[derive(Debug, Clone, PartialEq, Eq)]
pub struct Inputs {
    /// The text.
    pub text: Vec<u8>,
    /// The policy's bytes.
    pub policy: Vec<u8>,
    /// The decision bytes.
    pub decisions: Vec<u8>,
}

impl Inputs {
    /// The inputs of these bytes.
    #[must_use]
    pub fn new(text: &[u8], policy: &[u8], decisions: &[u8]) -> Self {
        Self {
            text: text.to_vec(),
            policy: policy.to_vec(),
            decisions: decisions.to_vec(),
        }
    }
}

/// Where the slices of a call stand.
#[derive(Debug, Clone, Copy, PartialEq, Eq)]
pub struct Layout {
    text: Spot,
    policy: Spot,
    decisions: Spot,
    out: Spot,
}

impl Layout {
    /// Each slice at such a spot.
    #[must_use]
    pub const fn all(spot: Spot) -> Self {
        Self {
            text: spot,
            policy: spot,
            decisions: spot,
            out: spot,
        }
    }

    /// Each slice at a spot of its own.
    pub const fn drawn(random: &mut Random) -> Self {
        Self {
            text: Spot::drawn(random),
            policy: Spot::drawn(random),
            decisions: Spot::drawn(random),
            out: Spot::drawn(random),
        }
    }
}

/// A call with its inputs.
#[derive(Debug, Clone, PartialEq, Eq)]
pub struct Case {
    /// The call.
    pub call: Call,
    /// What it is handed.
    pub inputs: Inputs,
}

impl Case {
    /// What the call does, without the test of the room, by the independent implementation of documents 01 and 02.
    #[must_use]
    pub fn draft(&self) -> Draft {
        let Inputs {
            text,
            policy,
            decisions,
        } = &self.inputs;
        match self.call {
            Call::Format => calls::format(text, policy),
            Call::List => calls::list(text, policy),
            Call::Mend(offset) => calls::mend(text, policy, offset, decisions),
            Call::Scan => calls::scan(text),
            Call::Repair => calls::repair(text),
            Call::Tips => tips::list(text, policy),
        }
    }

    /// Makes the call with an output of this room. The answer and the output must be what the draft says, and nothing
    /// else may change.
    pub fn check(
        &self,
        calls: &dyn Calls,
        draft: &Draft,
        room: usize,
        layout: &Layout,
    ) -> Result<(), Difference> {
        let places = [
            (&self.inputs.text, layout.text),
            (&self.inputs.policy, layout.policy),
            (&self.inputs.decisions, layout.decisions),
        ];
        let placed = places.map(|(bytes, spot)| Placed::new(bytes, spot));
        let [text, policy, decisions] = placed.each_ref().map(Placed::bytes);
        let name = || format!("{self}, {layout:?}");
        let margins = [layout.out.before, layout.out.after()];
        lend_between(margins, name, draft, room, |out| match self.call {
            Call::Format => calls.format(text, policy, out),
            Call::List => calls.list(text, policy, out),
            Call::Mend(offset) => calls.mend(text, policy, offset, decisions, out),
            Call::Scan => calls.scan(text, out),
            Call::Repair => calls.repair(text, out),
            Call::Tips => calls.tips(text, policy, out),
        })?;
        let are_as_made = placed
            .iter()
            .zip(places)
            .all(|(placed, (bytes, spot))| placed.is_as_made(bytes, spot));
        let name = || format!("{}, room {room}: the inputs stay as they are", name());
        same(name, &true, &are_as_made, bool::to_string)
    }
}

impl Display for Case {
    fn fmt(&self, out: &mut Formatter<'_>) -> fmt::Result {
        let Inputs {
            text,
            policy,
            decisions,
        } = &self.inputs;
        write!(out, "{:?} on {}", self.call, hexadecimal(text))?;
        write!(out, ", policy of {} bytes", policy.len())?;
        write!(out, ", decisions {decisions:?}")
    }
}
