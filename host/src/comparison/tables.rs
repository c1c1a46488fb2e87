//! The default policy, the variation entries and the version, which take no text.

use super::lent::{Difference, lend, same};
use crate::calls::{Answer, Calls, Reference};
use crate::reference::calls::Draft;
use crate::reference::characters;
use crate::reference::policy::default_policy;

/// Compares the default policy in rooms of several lengths, every entry, with indices after the last one, and the
/// version.
pub fn check(calls: &dyn Calls) -> Result<(), Difference> {
    let draft = Draft::bytes(default_policy().to_vec());
    for room in [0, draft.wanted() - 1, draft.wanted(), draft.wanted() + 9] {
        let name = || "default policy".to_owned();
        lend(name, &draft, room, |out| calls.default_policy(out))?;
    }
    let entries = characters::entries() as u64;
    for index in (0..=entries).chain([entries + 1, 1 << 32, 1 << 56, u64::MAX]) {
        let expected = Answer::of_word(Reference.variation_entry(index));
        let found = Answer::of_word(calls.variation_entry(index));
        let name = || format!("variation entry {index}");
        same(name, &expected, &found, Answer::to_string)?;
    }
    let [expected, found] = [Reference.version(), calls.version()].map(Answer::of_word);
    same(
        || "version".to_owned(),
        &expected,
        &found,
        Answer::to_string,
    )
}
