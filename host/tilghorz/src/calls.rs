//! Formatting, listing and mending: document 01, "Replacement and text". Taking damaged text in: document 02, (ii). The
//! memberships that decide a text: document 02, (viii). Findings around the cursor: document 02, (ix).

use std::borrow::Cow;
use std::ops::{Bound, RangeBounds};

use crate::table::numbers;
use crate::table::sealed::Read;
use crate::{Finding, Item, LONGEST_TEXT, Policy, Presentation, Refusal, Row, Table, Tip};
use crate::{answer, sys};

/// The rows that a table has room for at first.
const FIRST_ROWS: usize = 64;

/// The most findings that only share a byte with a stretch: one at its start, and one at its end.
const MOST_SHARING: usize = 2;

/// How many times as long as the text a repaired one can be: FFFD has three bytes, and a bad place one at least.
const REPAIR_TIMES: usize = 3;

/// What formatting did.
#[derive(Debug, Clone, Copy, PartialEq, Eq, Hash)]
pub enum Formatted {
    /// The text needs no change, and nothing was written.
    Unchanged,
    /// The formatted text is at the front of the output.
    Changed {
        /// Its length.
        len: usize,
    },
}

/// A repaired text. A bad place is a maximal subpart of the Unicode Standard, chapter 3.
#[derive(Debug, Clone, PartialEq, Eq, Hash)]
pub struct Repaired<'a> {
    /// The text with FFFD for each bad place. It is well-formed. If there is no bad place, it is the text itself.
    pub text: Cow<'a, [u8]>,
    /// The number of replacements.
    pub replaced: usize,
}

/// What repairing into a buffer did.
#[derive(Debug, Clone, Copy, PartialEq, Eq, Hash)]
pub struct RepairedLen {
    /// The length of the repaired text, which is at the front of the output.
    pub len: usize,
    /// The number of replacements.
    pub replaced: usize,
}

/// The findings around a stretch of bytes.
#[derive(Debug, Clone, PartialEq, Eq, Hash)]
pub struct Around {
    /// Those that lie wholly inside it, in text order.
    pub inside: Table<Finding>,
    /// Those that only share a byte with it, in text order: at most two.
    pub sharing: Table<Finding>,
}

/// The finding that is nearest to an offset.
#[derive(Debug, Clone, PartialEq, Eq, Hash)]
pub struct Nearest {
    /// The finding.
    pub finding: Finding,
    /// 0 inside the finding, otherwise the difference between the offset and that of its first or last byte, the
    /// smaller.
    pub distance: usize,
}

/// The formatted text: the text itself where it needs no change.
///
/// ```
/// use tilghorz::{Policy, Refusal};
///
/// let policy = Policy::default();
/// assert_eq!(&*tilghorz::format("1\u{FE0E}".as_bytes(), &policy)?, b"1");
/// let damaged = tilghorz::format(b"good\xFF", &policy);
/// assert_eq!(damaged, Err(Refusal::NotWellFormed { valid_up_to: 4 }));
/// # Ok::<(), Refusal>(())
/// ```
///
/// # Errors
/// [`Refusal::TextTooLong`] (1) and [`Refusal::NotWellFormed`] (3).
pub fn format<'a>(text: &'a [u8], policy: &Policy) -> Result<Cow<'a, [u8]>, Refusal> {
    with_format_room(text, policy, |out| format_into(text, policy, out))
}

/// The formatted text of a string, which is well-formed: the string itself where it needs no change.
///
/// ```
/// use std::borrow::Cow;
/// use tilghorz::Policy;
///
/// let policy = Policy::default();
/// assert_eq!(tilghorz::format_str("I \u{2764} it", &policy)?, "I \u{2764}\u{FE0E} it");
/// assert!(matches!(tilghorz::format_str("plain", &policy)?, Cow::Borrowed("plain")));
/// # Ok::<(), tilghorz::Refusal>(())
/// ```
///
/// # Errors
/// [`Refusal::TextTooLong`] (1).
pub fn format_str<'a>(text: &'a str, policy: &Policy) -> Result<Cow<'a, str>, Refusal> {
    Ok(match format(text.as_bytes(), policy)? {
        Cow::Borrowed(_) => Cow::Borrowed(text),
        Cow::Owned(bytes) => match String::from_utf8(bytes) {
            Ok(formatted) => Cow::Owned(formatted),
            Err(error) => answer::foreign(format_args!("a text with an {error}")),
        },
    })
}

/// Makes a call that formats a text, with enough room, and gives the text that is to be kept.
pub fn with_format_room<'a>(
    text: &'a [u8],
    policy: &Policy,
    call: impl FnMut(&mut [u8]) -> Result<Formatted, Refusal>,
) -> Result<Cow<'a, [u8]>, Refusal> {
    let (formatted, out) = with_room(formatted_room(text, policy), 1, call)?;
    Ok(match formatted {
        Formatted::Unchanged => Cow::Borrowed(text),
        Formatted::Changed { len } => Cow::Owned(front(out, len)),
    })
}

/// Formats into the caller's buffer. Four times the text's length is always enough room; under the default policy five
/// halves of it are. What is after the formatted text stays as it was.
///
/// ```
/// use tilghorz::{Formatted, Policy};
///
/// let (policy, mut out) = (Policy::default(), [0; 64]);
/// let heart = "\u{2764}".as_bytes();
/// let formatted = tilghorz::format_into(heart, &policy, &mut out)?;
/// assert_eq!(formatted, Formatted::Changed { len: 6 });
/// assert_eq!(tilghorz::filed(heart, &out, formatted), "\u{2764}\u{FE0E}".as_bytes());
/// # Ok::<(), tilghorz::Refusal>(())
/// ```
///
/// # Errors
/// [`Refusal::TextTooLong`] (1), [`Refusal::NotWellFormed`] (3) and [`Refusal::OutputTooShort`] (8); the buffer is then
/// as it was.
pub fn format_into(text: &[u8], policy: &Policy, out: &mut [u8]) -> Result<Formatted, Refusal> {
    let done = answer::read(sys::format(text, policy.as_bytes(), out))?;
    Ok(done.map_or(Formatted::Unchanged, |len| Formatted::Changed { len }))
}

/// The filed text (document 01's term): the message's own bytes, or the front of the buffer that [`format_into`] wrote
/// to. It is all of the buffer where the length passes it.
#[must_use]
pub fn filed<'a>(message: &'a [u8], buffer: &'a [u8], formatted: Formatted) -> &'a [u8] {
    match formatted {
        Formatted::Unchanged => message,
        Formatted::Changed { len } => buffer.get(..len).unwrap_or(buffer),
    }
}

/// The text with FFFD for each bad place, and their number. The result may be longer than a text that the other
/// functions take.
///
/// ```
/// let repaired = tilghorz::repair(b"cut off: \xE2\x9D")?;
/// assert_eq!(&*repaired.text, "cut off: \u{FFFD}".as_bytes());
/// assert_eq!(repaired.replaced, 1);
/// # Ok::<(), tilghorz::Refusal>(())
/// ```
///
/// # Errors
/// [`Refusal::TextTooLong`] (1).
pub fn repair(text: &[u8]) -> Result<Repaired<'_>, Refusal> {
    let room = REPAIR_TIMES * text.len().min(LONGEST_TEXT);
    let (RepairedLen { len, replaced }, out) = with_room(room, 1, |out| repair_into(text, out))?;
    let text = match replaced {
        0 => Cow::Borrowed(text),
        _ => Cow::Owned(front(out, len)),
    };
    Ok(Repaired { text, replaced })
}

/// Writes the repaired text into the caller's buffer. Three times the length of the text is always enough room. A text
/// without a bad place is written too. The bytes after the repaired text are unchanged.
///
/// ```
/// use tilghorz::RepairedLen;
///
/// let mut out = [0; 9];
/// let done = tilghorz::repair_into(b"a\xFFb", &mut out)?;
/// assert_eq!(done, RepairedLen { len: 5, replaced: 1 });
/// assert_eq!(&out[..done.len], "a\u{FFFD}b".as_bytes());
/// # Ok::<(), tilghorz::Refusal>(())
/// ```
///
/// # Errors
/// [`Refusal::TextTooLong`] (1) and [`Refusal::OutputTooShort`] (8); the buffer is then as it was.
pub fn repair_into(text: &[u8], out: &mut [u8]) -> Result<RepairedLen, Refusal> {
    let (len, replaced) = answer::read_two(sys::repair(text, out))?;
    Ok(RepairedLen { len, replaced })
}

/// The findings, in text order.
///
/// ```
/// use tilghorz::Policy;
///
/// let findings = tilghorz::findings("1\u{FE0E} \u{2764}".as_bytes(), &Policy::default())?;
/// for finding in &findings {
///     println!("{:?}: {:?}", finding.span(), finding.counts);
/// }
/// assert_eq!((findings.len(), findings.totals().decisions), (2, 1));
/// # Ok::<(), tilghorz::Refusal>(())
/// ```
///
/// # Errors
/// [`Refusal::TextTooLong`] (1) and [`Refusal::NotWellFormed`] (3).
pub fn findings(text: &[u8], policy: &Policy) -> Result<Table<Finding>, Refusal> {
    table(|table| sys::list(text, policy.as_bytes(), table))
}

/// The findings that lie wholly inside a stretch of bytes, and those that only share a byte with it. A stretch that reaches
/// past the text is cut at its end. An empty stretch has neither, and one that ends before its start is empty.
///
/// ```
/// use tilghorz::Policy;
///
/// let (text, policy) = ("1\u{FE0E} \u{2764}".as_bytes(), Policy::default());
/// let around = tilghorz::around(text, &policy, 2..)?;
/// assert_eq!(around.inside.get(0).map(|finding| finding.span()), Some(5..8));
/// assert_eq!(around.sharing.get(0).map(|finding| finding.span()), Some(0..4));
/// # Ok::<(), tilghorz::Refusal>(())
/// ```
///
/// # Errors
/// [`Refusal::TextTooLong`] (1) and [`Refusal::NotWellFormed`] (3).
pub fn around(
    text: &[u8],
    policy: &Policy,
    stretch: impl RangeBounds<usize>,
) -> Result<Around, Refusal> {
    let place = sys::FINDING_BYTES;
    let mut sharing = vec![0; MOST_SHARING * place];
    let (from, to) = ends(&stretch);
    let (rows, inside) = with_room(FIRST_ROWS * place, place, |inside| {
        let word = sys::around(text, policy.as_bytes(), from, to, inside, &mut sharing);
        answer::read_two(word)
    })?;
    let (inside_rows, sharing_rows) = rows;
    Ok(Around {
        inside: Table::new(inside, inside_rows),
        sharing: Table::new(sharing, sharing_rows),
    })
}

/// The offset of the first byte of a stretch, and the offset after its last one. A stretch without an end reaches past
/// every text.
fn ends(stretch: &impl RangeBounds<usize>) -> (u64, u64) {
    let from = match stretch.start_bound() {
        Bound::Included(start) => *start,
        Bound::Excluded(before) => before.saturating_add(1),
        Bound::Unbounded => 0,
    };
    let to = match stretch.end_bound() {
        Bound::Included(last) => last.saturating_add(1),
        Bound::Excluded(end) => *end,
        Bound::Unbounded => usize::MAX,
    };
    (from as u64, to as u64)
}

/// The finding that is nearest to an offset, which may be past the text: the earlier of two that are equally near, or
/// none if the text has no finding.
///
/// ```
/// use tilghorz::Policy;
///
/// let (text, policy) = ("1\u{FE0E} \u{2764}".as_bytes(), Policy::default());
/// let nearest = tilghorz::nearest(text, &policy, 100)?.expect("a finding");
/// assert_eq!((nearest.finding.start, nearest.distance), (5, 93));
/// assert_eq!(tilghorz::nearest(b"plain", &policy, 0)?, None);
/// # Ok::<(), tilghorz::Refusal>(())
/// ```
///
/// # Errors
/// [`Refusal::TextTooLong`] (1) and [`Refusal::NotWellFormed`] (3).
pub fn nearest(text: &[u8], policy: &Policy, offset: usize) -> Result<Option<Nearest>, Refusal> {
    let mut row = [0; sys::NEAREST_BYTES];
    let word = sys::nearest(text, policy.as_bytes(), offset as u64, &mut row);
    let found = answer::read(word)?;
    let (finding, distance) = row.split_at(sys::FINDING_BYTES);
    Ok(found.map(|_| Nearest {
        finding: Finding::read(finding),
        distance: numbers::<1>(distance)[0],
    }))
}

/// The largest offset, at or below an offset, where a text may be cut for two workers: the text's length, or an offset
/// where a character begins that is no selector, modifier, 20E3 or tag. None if there is no such offset.
///
/// If the text is well-formed, both parts are, the two parts formatted and joined are the whole formatted, and the
/// totals add up. The text may be longer than [`LONGEST_TEXT`](crate::LONGEST_TEXT), and need not be well-formed: nothing
/// is tested. The time is by the distance between the offset and the cut.
///
/// ```
/// use tilghorz::{Policy, Refusal};
///
/// let policy = Policy::default();
/// let text = "1\u{20E3} \u{2764}".as_bytes();
/// // Inside 20E3. A cut before 20E3 would change what is written after the digit.
/// assert_eq!(tilghorz::cut(text, 2), Some(0));
/// let (first, second) = text.split_at(tilghorz::cut(text, 6).unwrap_or(text.len()));
/// assert_eq!((first.len(), second.len()), (5, 3));
/// let joined = [tilghorz::format(first, &policy)?, tilghorz::format(second, &policy)?].concat();
/// assert_eq!(joined, &*tilghorz::format(text, &policy)?);
/// # Ok::<(), Refusal>(())
/// ```
#[must_use]
pub fn cut(text: &[u8], offset: usize) -> Option<usize> {
    // The call has no refusal.
    answer::read(sys::cut(text, offset as u64)).ok().flatten()
}

/// The items, in text order.
///
/// ```
/// use tilghorz::ItemKind;
///
/// let items = tilghorz::items("a \u{2764}\u{FE0F}".as_bytes())?;
/// let kinds: Vec<ItemKind> = items.iter().map(|item| item.kind).collect();
/// assert_eq!(kinds, [ItemKind::Passthrough, ItemKind::EmojiHeaded]);
/// assert_eq!(items.get(1).map(|item| item.span()), Some(2..8));
/// # Ok::<(), tilghorz::Refusal>(())
/// ```
///
/// # Errors
/// [`Refusal::TextTooLong`] (1) and [`Refusal::NotWellFormed`] (3).
pub fn items(text: &[u8]) -> Result<Table<Item>, Refusal> {
    table(|table| sys::scan(text, table))
}

/// The memberships of a policy whose flip alone alters the formatted text: by code point, ordinary before keycap,
/// `prefer_bare` before `bare_as_text`. It takes one pass over the text, and some microseconds more for the memberships.
///
/// ```
/// use tilghorz::{Context, KeySet, Policy};
///
/// let policy = Policy::default();
/// let heart = "\u{2764}".as_bytes();
/// let tips = tilghorz::tips(heart, &policy)?;
/// assert_eq!(tips.len(), 2);
/// for tip in &tips {
///     assert_eq!((tip.character, tip.context), ('\u{2764}', Context::Ordinary));
/// }
/// assert!(tilghorz::tips(b"no emoji", &policy)?.is_empty());
/// # Ok::<(), tilghorz::Refusal>(())
/// ```
///
/// # Errors
/// [`Refusal::TextTooLong`] (1) and [`Refusal::NotWellFormed`] (3).
pub fn tips(text: &[u8], policy: &Policy) -> Result<Table<Tip>, Refusal> {
    table(|table| sys::tips(text, policy.as_bytes(), table))
}

/// The whole text with the finding that starts at the offset mended. A finding takes as many decisions as its counts
/// say. [`default_decisions`] has those that formatting makes.
///
/// ```
/// use tilghorz::{Policy, Presentation, Refusal};
///
/// let (text, policy) = ("I \u{2764} it".as_bytes(), Policy::default());
/// let mended = tilghorz::mend(text, &policy, 2, &[Presentation::Emoji])?;
/// assert_eq!(mended, "I \u{2764}\u{FE0F} it".as_bytes());
/// let wanted = Err(Refusal::WrongNumberOfDecisions { wanted: 1 });
/// assert_eq!(tilghorz::mend(text, &policy, 2, &[]), wanted);
/// # Ok::<(), Refusal>(())
/// ```
///
/// # Errors
/// [`Refusal::TextTooLong`] (1), [`Refusal::NotWellFormed`] (3), [`Refusal::NoFinding`] (4) and
/// [`Refusal::WrongNumberOfDecisions`] (5).
pub fn mend(
    text: &[u8],
    policy: &Policy,
    offset: usize,
    decisions: &[Presentation],
) -> Result<Vec<u8>, Refusal> {
    let mended = with_room(any_room(text), 1, |out| {
        mend_into(text, policy, offset, decisions, out)
    });
    mended.map(|(len, out)| front(out, len))
}

/// Mends into the caller's buffer, and gives the length of the mended text. Four times the text's length is always enough
/// room. What is after the mended text stays as it was.
///
/// ```
/// use tilghorz::{Policy, Presentation};
///
/// let mut out = [0; 12];
/// let heart = "\u{2764}".as_bytes();
/// let len = tilghorz::mend_into(heart, &Policy::default(), 0, &[Presentation::Text], &mut out)?;
/// assert_eq!(&out[..len], "\u{2764}\u{FE0E}".as_bytes());
/// # Ok::<(), tilghorz::Refusal>(())
/// ```
///
/// # Errors
/// [`Refusal::TextTooLong`] (1), [`Refusal::NotWellFormed`] (3), [`Refusal::NoFinding`] (4),
/// [`Refusal::WrongNumberOfDecisions`] (5) and [`Refusal::OutputTooShort`] (8); the buffer is then as it was.
pub fn mend_into(
    text: &[u8],
    policy: &Policy,
    offset: usize,
    decisions: &[Presentation],
    out: &mut [u8],
) -> Result<usize, Refusal> {
    let decisions = sys::decision_bytes(decisions);
    let word = sys::mend(text, policy.as_bytes(), offset as u64, decisions, out);
    answer::read_done(word)
}

/// The decisions that formatting makes in the finding that starts at the offset: one for each bare base that needs a
/// selector, in text order.
///
/// ```
/// use tilghorz::{Policy, Presentation};
///
/// let (text, policy) = ("I \u{2764} it".as_bytes(), Policy::default());
/// let decisions = tilghorz::default_decisions(text, &policy, 2)?;
/// assert_eq!(decisions, [Presentation::Text]);
/// let mended = tilghorz::mend(text, &policy, 2, &decisions)?;
/// assert_eq!(mended, *tilghorz::format(text, &policy)?);
/// # Ok::<(), tilghorz::Refusal>(())
/// ```
///
/// # Errors
/// [`Refusal::TextTooLong`] (1), [`Refusal::NotWellFormed`] (3) and [`Refusal::NoFinding`] (4).
pub fn default_decisions(
    text: &[u8],
    policy: &Policy,
    offset: usize,
) -> Result<Vec<Presentation>, Refusal> {
    let nearest = nearest(text, policy, offset)?.filter(|nearest| nearest.finding.start == offset);
    let finding = nearest.ok_or(Refusal::NoFinding)?.finding;
    // The bytes of a finding are an item of their own.
    let item = text.get(finding.span()).unwrap_or_default();
    let mended = |all| mend(item, policy, 0, &vec![all; finding.counts.decisions]);
    let (as_text, as_emoji) = (mended(Presentation::Text)?, mended(Presentation::Emoji)?);
    let formatted = format(item, policy)?;
    // The two differ in the last byte of each selector that a decision adds.
    let selectors = as_text.iter().zip(&as_emoji).zip(formatted.iter());
    let decided = selectors.filter(|((text, emoji), _)| text != emoji);
    let decisions = decided.map(|((text, _), default)| {
        if default == text {
            Presentation::Text
        } else {
            Presentation::Emoji
        }
    });
    Ok(decisions.collect())
}

/// Room for the formatted text. Under the default policy "twice the formatted length is at most five times the input
/// length" (document 02, vii): the theorem `FiveHalves` of crates/room.
fn formatted_room(text: &[u8], policy: &Policy) -> usize {
    if policy.is_default() {
        5 * text.len().min(LONGEST_TEXT) / 2
    } else {
        any_room(text)
    }
}

/// Room for the result on a text under any policy: "at most 4 times the input". The system gives memory when it is first
/// written to, so room that is not used costs little.
fn any_room(text: &[u8]) -> usize {
    4 * text.len().min(LONGEST_TEXT)
}

/// The front of a buffer.
pub(crate) fn front(mut buffer: Vec<u8>, len: usize) -> Vec<u8> {
    buffer.truncate(len);
    buffer.shrink_to_fit();
    buffer
}

/// A table with as much room as its rows need.
fn table<R: Row>(call: impl Fn(&mut [u8]) -> u64) -> Result<Table<R>, Refusal> {
    let place = <R as Read>::BYTES;
    let call = |table: &mut [u8]| answer::read_done(call(table));
    let (rows, bytes) = with_room(FIRST_ROWS * place, place, call)?;
    Ok(Table::new(bytes, rows))
}

/// Makes a call with a buffer of `room` bytes. If this buffer is too short, it makes the call once more, with the room
/// that the refusal asks for. The refusal counts places of `place` bytes.
pub(crate) fn with_room<T>(
    room: usize,
    place: usize,
    mut call: impl FnMut(&mut [u8]) -> Result<T, Refusal>,
) -> Result<(T, Vec<u8>), Refusal> {
    let mut buffer = vec![0; room];
    let answer = call(&mut buffer);
    let Err(Refusal::OutputTooShort { wanted: places } | Refusal::TableTooShort { places }) =
        answer
    else {
        return answer.map(|answer| (answer, buffer));
    };
    buffer = vec![0; places.saturating_mul(place)];
    call(&mut buffer).map(|answer| (answer, buffer))
}
