//! Document 01, "Counts and finding": the eight counts, the six rules for a base, and the replacement.

use super::characters::{Presentation, properties};
use super::items::{Item, Kind, Part, Role};
use super::policy::{Policy, SingletonRule};

/// The eight counts in document 01's order.
pub type Counts = [u64; 8];

const UNSANCTIONED: usize = 0;
const MODIFIER_DEFECTIVE: usize = 1;
const ADDITIONAL_DEFECTIVE: usize = 2;
const TAG_CONFLICTING: usize = 3;
const TAG_FORCED: usize = 4;
const TAG_REDUNDANT: usize = 5;
const POLICY_REDUNDANT: usize = 6;
/// The place of the decisions among the counts.
pub const DECISIONS: usize = 7;

/// What is found in an item: the counts, and the replacement with its decisions left open.
#[derive(Debug, Clone, PartialEq, Eq, Default)]
pub struct Analysis {
    /// The counts.
    pub counts: Counts,
    /// The bytes of the replacement without the selectors of the decisions.
    bytes: Vec<u8>,
    /// The decisions in text order.
    choices: Vec<Choice>,
}

/// A decision: where its selector goes in the bytes, and its default.
#[derive(Debug, Clone, Copy, PartialEq, Eq)]
struct Choice {
    at: usize,
    default: Presentation,
}

/// What becomes of the selectors of a part.
enum Verdict {
    /// No selector is left.
    Bare,
    /// This selector is left.
    Keep(Presentation),
    /// A decision with this default.
    Decide(Presentation),
}

impl Analysis {
    /// The default of each decision.
    pub fn defaults(&self) -> impl Iterator<Item = Presentation> + '_ {
        self.choices.iter().map(|choice| choice.default)
    }

    /// The replacement under decisions, of which there must be as many as are counted.
    #[must_use]
    pub fn replacement(&self, decisions: impl IntoIterator<Item = Presentation>) -> Vec<u8> {
        let mut out = Vec::with_capacity(self.bytes.len() + 3 * self.choices.len());
        let mut from = 0;
        for (choice, decision) in self.choices.iter().zip(decisions) {
            out.extend(&self.bytes[from..choice.at]);
            out.extend(decision.selector());
            from = choice.at;
        }
        out.extend(&self.bytes[from..]);
        out
    }

    /// The replacement under the defaults.
    #[must_use]
    pub fn default_replacement(&self) -> Vec<u8> {
        self.replacement(self.defaults())
    }

    /// Counts the selectors of a part and adds the part to the replacement.
    fn push(&mut self, part: &Part, first_modification: Option<Role>, policy: &Policy) {
        let verdict = if part.role == Role::Base {
            self.base(part, first_modification, policy)
        } else {
            self.unsanctioned(&part.selectors);
            Verdict::Bare
        };
        push_character(&mut self.bytes, part.character);
        match verdict {
            Verdict::Bare => {}
            Verdict::Keep(presentation) => self.bytes.extend(presentation.selector()),
            Verdict::Decide(default) => {
                let at = self.bytes.len();
                self.choices.push(Choice { at, default });
            }
        }
    }

    /// "For a single base the first rule that fits holds."
    fn base(&mut self, part: &Part, first: Option<Role>, policy: &Policy) -> Verdict {
        let of = properties(part.character);
        let Some(entry) = of.entry else {
            // Rule 1.
            self.unsanctioned(&part.selectors);
            return Verdict::Bare;
        };
        let selector = part.selectors.first().copied();
        // Every rule below counts the first selector for itself, and the rest as unsanctioned.
        self.unsanctioned(part.selectors.get(1..).unwrap_or_default());
        match first {
            Some(Role::Modifier) => self.before_modifier(selector, of.modifier_base),
            Some(Role::Tag) => self.before_tags(selector, of.is_emoji_default()),
            _ => {
                let rule = policy.singleton_rule(entry, first == Some(Role::Keycap));
                self.by_policy(selector, rule)
            }
        }
    }

    /// Rules 2 and 3.
    fn before_modifier(&mut self, first: Option<Presentation>, is_modifier_base: bool) -> Verdict {
        match first {
            None => Verdict::Bare,
            Some(Presentation::Text) => Verdict::Keep(Presentation::Text),
            Some(Presentation::Emoji) => {
                self.counts[if is_modifier_base {
                    MODIFIER_DEFECTIVE
                } else {
                    ADDITIONAL_DEFECTIVE
                }] += 1;
                Verdict::Bare
            }
        }
    }

    /// Rules 4 and 5.
    fn before_tags(&mut self, first: Option<Presentation>, is_emoji_default: bool) -> Verdict {
        if first == Some(Presentation::Text) {
            self.counts[TAG_CONFLICTING] += 1;
        }
        let has_emoji_selector = first == Some(Presentation::Emoji);
        if is_emoji_default {
            self.counts[TAG_REDUNDANT] += u64::from(has_emoji_selector);
            Verdict::Bare
        } else {
            self.counts[TAG_FORCED] += u64::from(!has_emoji_selector);
            Verdict::Keep(Presentation::Emoji)
        }
    }

    /// Rule 6.
    fn by_policy(&mut self, first: Option<Presentation>, rule: SingletonRule) -> Verdict {
        let (bare_side, default) = match rule {
            SingletonRule::TextToBare => (Some(Presentation::Text), None),
            SingletonRule::EmojiToBare => (Some(Presentation::Emoji), None),
            SingletonRule::BareToText => (None, Some(Presentation::Text)),
            SingletonRule::BareToEmoji => (None, Some(Presentation::Emoji)),
        };
        match (first, default) {
            (Some(_), _) if first == bare_side => {
                self.counts[POLICY_REDUNDANT] += 1;
                Verdict::Bare
            }
            (Some(selector), _) => Verdict::Keep(selector),
            (None, Some(default)) => {
                self.counts[DECISIONS] += 1;
                Verdict::Decide(default)
            }
            (None, None) => Verdict::Bare,
        }
    }

    /// Counts selectors as unsanctioned.
    fn unsanctioned(&mut self, selectors: &[Presentation]) {
        self.counts[UNSANCTIONED] += selectors.len() as u64;
    }
}

/// What is found in an item, if some count is not 0.
#[must_use]
pub fn finding(item: &Item, policy: &Policy) -> Option<Analysis> {
    finding_by(item, |_| policy)
}

/// The same, where each base has the policy of the offset of its last byte.
#[must_use]
pub fn finding_by<'a>(item: &Item, policy: impl Fn(usize) -> &'a Policy) -> Option<Analysis> {
    let mut analysis = Analysis::default();
    let mut at = item.start;
    if item.kind == Kind::Selectors {
        // Each selector is three bytes.
        analysis.counts[UNSANCTIONED] = (item.end - item.start) as u64 / 3;
    }
    for (number, part) in item.parts.iter().enumerate() {
        // The part after a base, if it is of a modification, is the front of the first one.
        let next = item.parts.get(number + 1).map(|part| part.role);
        let is_modification =
            |role: &Role| matches!(role, Role::Modifier | Role::Keycap | Role::Tag);
        let length = char::from_u32(part.character).map_or(1, char::len_utf8);
        analysis.push(part, next.filter(is_modification), policy(at + length - 1));
        // Each selector is three bytes.
        at += length + 3 * part.selectors.len();
    }
    (analysis.counts != [0; 8]).then_some(analysis)
}

/// Adds the bytes of a character.
fn push_character(out: &mut Vec<u8>, character: u32) {
    if let Some(character) = char::from_u32(character) {
        let mut bytes = [0; 4];
        out.extend(character.encode_utf8(&mut bytes).as_bytes());
    }
}
