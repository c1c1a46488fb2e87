//! A call on bytes that are no feed or no store. Document 02, (iii): "for any other the answer is the program's choice,
//! within the lent buffers, and a refusal still writes nothing".

use crate::calls::Answer;
use crate::comparison::lent::{Difference, MARGIN, hexadecimal, pattern, same};

/// What a call on such bytes may do.
pub struct Free<'a> {
    /// What a report calls it.
    pub name: &'a dyn Fn() -> String,
    /// The numbers that it can answer besides 0.
    pub numbers: &'a [u8],
    /// Whether the value of an answer 0 is the number of bytes written.
    pub writes: bool,
}

impl Free<'_> {
    /// Makes the call twice, on buffers with other bytes in and around them. It stays in its buffers; a refusal writes
    /// nothing, a success writes no byte after what it says, and both calls do the same. Gives the state after it.
    pub fn make(
        &self,
        state: &[u8],
        room: usize,
        mut call: impl FnMut(&mut [u8], &mut [u8]) -> u64,
    ) -> Result<Vec<u8>, Difference> {
        let mut first = None;
        for turned in [false, true] {
            let done = self.once(state, room, turned, &mut call)?;
            let before = first.get_or_insert_with(|| done.clone());
            let name = || self.told(state, "the same call does the same again");
            same(name, &*before, &done, |(answer, state, written)| {
                let (state, written) = (hexadecimal(state), hexadecimal(written));
                format!("{answer}; {state}; {written}")
            })?;
        }
        Ok(first.map_or_else(Vec::new, |(_, state, _)| state))
    }

    /// Makes the call once, and gives the answer, the state after it, and what it wrote.
    fn once(
        &self,
        state: &[u8],
        room: usize,
        turned: bool,
        call: &mut impl FnMut(&mut [u8], &mut [u8]) -> u64,
    ) -> Result<(Answer, Vec<u8>, Vec<u8>), Difference> {
        let filled = |length: usize| {
            let bytes = pattern(length).into_iter();
            let turn = |byte: u8| if turned { !byte } else { byte };
            bytes.map(turn).collect::<Vec<u8>>()
        };
        let around = filled(MARGIN);
        let mut states = [&around, state, &around].concat();
        let mut outs = filled(MARGIN + room + MARGIN);
        let (states_made, outs_made) = (states.clone(), outs.clone());
        let place = MARGIN..MARGIN + state.len();
        let out = &mut outs[MARGIN..MARGIN + room];
        let answer = Answer::of_word(call(&mut states[place.clone()], out));
        let name = |what: &str| self.told(state, &format!("{answer}, room {room}: {what}"));
        let is_done = answer.number == Answer::DONE;
        let written = if is_done && self.writes {
            answer.value
        } else {
            0
        };
        let is_known = (is_done || self.numbers.contains(&answer.number)) && written <= room as u64;
        same(|| name("a known answer"), &true, &is_known, bool::to_string)?;
        let after = states[place.clone()].to_vec();
        let place_written = MARGIN..MARGIN + written as usize;
        let written = outs[place_written.clone()].to_vec();
        if !answer.is_refusal() {
            states[place].copy_from_slice(state);
            outs[place_written.clone()].copy_from_slice(&outs_made[place_written]);
        }
        let stays = states == states_made && outs == outs_made;
        same(|| name("all else stays"), &true, &stays, bool::to_string)?;
        Ok((answer, after, written))
    }

    /// The call, and what is said of it.
    fn told(&self, state: &[u8], what: &str) -> String {
        let (name, state) = ((self.name)(), hexadecimal(state));
        format!("{name}, of {state}; which are none, {what}")
    }
}
