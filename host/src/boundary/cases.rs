//! The cases: every small size and those around the limits, lengths of policies and of decisions, one memory for two
//! inputs, and drawn ones.

use std::collections::BTreeSet;

use super::case::{Call, Case, Inputs, Layout};
use super::placed::Spot;
use crate::Random;
use crate::calls::{Calls, FINDING_BYTES, ITEM_BYTES, POLICY_BYTES, TIP_BYTES};
use crate::comparison::lent::{Difference, lend_between};
use crate::comparison::limits::{lengths, sparse};
use crate::comparison::policies::{self, Policy};
use crate::comparison::reduce::reduced_text;
use crate::comparison::texts::Alphabet;
use crate::reference::book::Book;
use crate::reference::calls::{self, Draft};
use crate::reference::policy;
use crate::reference::tips;

/// The lengths of texts up to which each is tried.
const SMALL: usize = 72;
/// Lengths that are tried with one byte less and one more.
const SIZES: [usize; 4] = [128, POLICY_BYTES, 256, 1024];
/// The lengths of policies up to which each is tried.
const POLICIES: usize = 260;
/// The numbers of decisions up to which each is tried.
const DECISIONS: usize = 20;

/// The calls on a text alone or with a policy.
const CALLS: [Call; 5] = [
    Call::Format,
    Call::List,
    Call::Scan,
    Call::Repair,
    Call::Tips,
];

/// Makes calls and counts them.
pub struct Boundary<'a> {
    pub(super) calls: &'a dyn Calls,
    pub(super) random: Random,
    alphabet: Alphabet,
    /// The calls so far.
    pub made: u64,
}

impl<'a> Boundary<'a> {
    /// No call yet.
    #[must_use]
    pub fn new(calls: &'a dyn Calls, seed: u64) -> Self {
        Self {
            calls,
            random: Random::from_seed(seed),
            alphabet: Alphabet::new(),
            made: 0,
        }
    }

    /// Texts of every small length and of lengths around some sizes.
    pub fn sizes(&mut self) -> Result<(), Difference> {
        let around = |size: usize| [size - 1, size, size + 1];
        for length in (0..=SMALL).chain(SIZES.into_iter().flat_map(around)) {
            for text in texts(length) {
                for policy in [default_policy(), policy::empty()] {
                    self.all_calls(&text, &policy)?;
                }
            }
        }
        Ok(())
    }

    /// Policies of every length up to some way past theirs, and of other versions.
    pub fn policies(&mut self) -> Result<(), Difference> {
        for length in 0..=POLICIES {
            let mut policy = default_policy();
            policy.resize(length, 0);
            self.all_calls("1\u{FE0E} \u{2764}".as_bytes(), &policy)?;
        }
        self.versions()
    }

    /// Policies of other versions: each bit of the version flipped, alone, with an unused bit set, and
    /// with a byte less.
    fn versions(&mut self) -> Result<(), Difference> {
        for bit in 0..64 {
            let mut policy = default_policy();
            policy[bit / 8] ^= 1 << (bit % 8);
            self.all_calls("1\u{FE0E} \u{2764}".as_bytes(), &policy)?;
            policy[POLICY_BYTES - 1] = 0x80;
            self.all_calls(b"1\xFF", &policy)?;
            policy.pop();
            self.all_calls(b"1\xFF", &policy)?;
        }
        Ok(())
    }

    /// Findings with several decisions, and decisions as many as wanted, one off, and with a byte above 1 at either
    /// end.
    pub fn decisions(&mut self) -> Result<(), Difference> {
        for number in 0..=DECISIONS {
            let text = vec!["\u{2764}"; number].join("\u{200D}");
            for length in number.saturating_sub(1)..=number + 1 {
                let valid: Vec<u8> = (0..length).map(|place| (place % 2) as u8).collect();
                let mut lists = vec![valid.clone()];
                for place in [0, length.saturating_sub(1)] {
                    let mut spoiled = valid.clone();
                    if let Some(byte) = spoiled.get_mut(place) {
                        *byte = 2;
                    }
                    lists.push(spoiled);
                }
                for decisions in lists {
                    self.mend(text.as_bytes(), &default_policy(), 0, &decisions)?;
                }
            }
        }
        Ok(())
    }

    /// The default policy into outputs of every length up to some way past its own.
    pub fn default_policy(&mut self) -> Result<(), Difference> {
        let draft = Draft::bytes(default_policy());
        for room in 0..=POLICIES {
            for margins in [[0, 0], [room % 9, 0], [0, 5]] {
                let name = || "default policy".to_owned();
                self.made += 1;
                lend_between(margins, name, &draft, room, |out| {
                    self.calls.default_policy(out)
                })?;
            }
        }
        Ok(())
    }

    /// The text, the policy and the decisions are one memory: what is only read may overlap.
    pub fn one_memory(&mut self) -> Result<(), Difference> {
        // The version, then digits, and zeros where a set has no entries.
        let (version, sets) = (&policy::empty()[..8], POLICY_BYTES - 8);
        let set = [[b'1'; 40], [0; 40]].concat();
        let memory = [version, &set[..sets / 4].repeat(4)].concat();
        for end in 0..=memory.len() {
            let text = &memory[memory.len() - end..];
            let decisions = &memory[..end % 3];
            let (format, list) = (calls::format(text, &memory), calls::list(text, &memory));
            let mend = calls::mend(text, &memory, 0, decisions);
            let tips = tips::list(text, &memory);
            self.made += 4;
            self.lend("format", &format, |out| {
                self.calls.format(text, &memory, out)
            })?;
            self.lend("list", &list, |out| self.calls.list(text, &memory, out))?;
            self.lend("tips", &tips, |out| self.calls.tips(text, &memory, out))?;
            self.lend("mend", &mend, |out| {
                self.calls.mend(text, &memory, 0, decisions, out)
            })?;
        }
        Ok(())
    }

    /// Lends a buffer that is exactly full.
    fn lend(
        &self,
        name: &str,
        draft: &Draft,
        call: impl FnOnce(&mut [u8]) -> u64,
    ) -> Result<(), Difference> {
        let name = || format!("{name}, one memory for text and policy");
        lend_between([0, 0], name, draft, draft.wanted(), call)
    }

    /// A drawn text, well-formed or damaged, under a drawn policy.
    pub fn drawn(&mut self) -> Result<(), Difference> {
        let random = &mut self.random;
        let text = match random.below(3) {
            0 => self.alphabet.damaged(random),
            _ => self.alphabet.drawn(random),
        };
        let policy = match random.below(8) {
            0 => policies::refused(random),
            1 => Policy::default_policy(),
            _ => policies::drawn(random),
        };
        self.all_calls(&text, &policy.bytes)
    }

    /// Texts of lengths around the limits, with findings at the front, in the middle and at the end, into outputs
    /// that are exactly full or one byte short. Each slice fills its allocation.
    pub fn limits(&mut self) -> Result<(), Difference> {
        for length in lengths() {
            for call in CALLS {
                let inputs = Inputs::new(&sparse(length), &default_policy(), &[]);
                let case = Case { call, inputs };
                let draft = case.draft();
                let wanted = draft.wanted();
                for room in BTreeSet::from([wanted.saturating_sub(1), wanted]) {
                    self.made += 1;
                    case.check(self.calls, &draft, room, &Layout::all(Spot::EXACT))?;
                }
            }
        }
        Ok(())
    }

    /// Every call on a text under a policy; mending at the front, at the end, and at the last finding.
    fn all_calls(&mut self, text: &[u8], policy: &[u8]) -> Result<(), Difference> {
        for call in CALLS {
            self.try_call(call, text, policy, &[])?;
        }
        let book = Book::new(text, policy);
        let last = book.ok().and_then(|book| book.open().pop());
        for (offset, decisions) in [(0, Vec::new()), (text.len(), vec![0])]
            .into_iter()
            .chain(last)
        {
            self.mend(text, policy, offset, &decisions)?;
        }
        Ok(())
    }

    fn mend(
        &mut self,
        text: &[u8],
        policy: &[u8],
        offset: usize,
        decisions: &[u8],
    ) -> Result<(), Difference> {
        self.try_call(Call::Mend(offset as u64), text, policy, decisions)
    }

    /// Makes a call in several rooms and layouts. A difference is reduced first.
    fn try_call(
        &mut self,
        call: Call,
        text: &[u8],
        policy: &[u8],
        decisions: &[u8],
    ) -> Result<(), Difference> {
        let inputs = Inputs::new(text, policy, decisions);
        let case = Case { call, inputs };
        let layouts = [
            Layout::all(Spot::EXACT),
            Layout::all(Spot::at_the_end(1 + self.random.below(16))),
            Layout::drawn(&mut self.random),
        ];
        let rooms = self.in_rooms(&case, &layouts);
        self.made += *rooms.as_ref().unwrap_or(&0);
        let Err(difference) = rooms else {
            return Ok(());
        };
        let with_text = |text: &[u8]| {
            let mut case = case.clone();
            case.inputs.text = text.to_vec();
            self.in_rooms(&case, &layouts).err()
        };
        let small = reduced_text(text, |text| with_text(text).is_some());
        Err(with_text(&small).unwrap_or(difference))
    }

    /// How many calls there were, or the first difference.
    fn in_rooms(&self, case: &Case, layouts: &[Layout]) -> Result<u64, Difference> {
        let draft = case.draft();
        let rooms = rooms(&draft, case);
        for room in &rooms {
            for layout in layouts {
                case.check(self.calls, &draft, *room, layout)?;
            }
        }
        Ok((rooms.len() * layouts.len()) as u64)
    }
}

/// The rooms of an output: none, one byte, and what is wanted, one byte less and more, and so for a row of a table. To repair,
/// also three times the text, which is always enough, and one byte less.
fn rooms(draft: &Draft, case: &Case) -> BTreeSet<usize> {
    let row = match case.call {
        Call::Format | Call::Mend(_) | Call::Repair => 8,
        Call::List => FINDING_BYTES,
        Call::Scan => ITEM_BYTES,
        Call::Tips => TIP_BYTES,
    };
    let wanted = draft.wanted();
    let mut rooms = BTreeSet::from([0, 1, row]);
    for size in [wanted, wanted.saturating_sub(row), wanted + row] {
        rooms.extend([size.saturating_sub(1), size, size + 1]);
    }
    if case.call == Call::Repair {
        let enough = 3 * case.inputs.text.len();
        rooms.extend([enough.saturating_sub(1), enough]);
    }
    rooms
}

/// Texts of a length: of plain characters, of digits, of all kinds of characters, with the last one incomplete and with all
/// complete, and of bad places of each width.
pub fn texts(length: usize) -> [Vec<u8>; 5] {
    let sequence = "\u{2764}\u{FE0F}\u{FE0E}\u{200D}\u{1F1E6}\u{FE0E}\u{1F1E7}\u{E9}1\u{20E3}\u{261D}\u{FE0F}\u{1F3FB}\
        \u{FE0F}\u{231A}\u{E0061}\u{FE0F}\u{E007F}\u{200D}\u{200D}\u{A9}\u{1F3F4}\u{E007F}";
    let many = sequence.repeat(length / sequence.len() + 1);
    let cut = &many.as_bytes()[..length];
    let whole = many.floor_char_boundary(length);
    let filled = [&vec![b'a'; length - whole][..], &cut[..whole]].concat();
    let bad = [0xF0, 0x9F, 0x98, 0xE2, 0x9D, b'a', 0xFF];
    [
        vec![b'a'; length],
        vec![b'1'; length],
        cut.to_vec(),
        filled,
        bad.into_iter().cycle().take(length).collect(),
    ]
}

/// The default policy's bytes.
fn default_policy() -> Vec<u8> {
    Policy::default_policy().bytes
}
