//! The report of a difference.

use std::fmt::{Display, Write};

use super::feed_case::Step;
use super::lent::{Difference, hexadecimal};
use super::list_case::Mend;
use super::policies::Policy;
use super::store_case;

/// The report of a difference in a text or in a list of calls on it.
pub fn report(
    kind: &str,
    (text, found_in): (&[u8], usize),
    policy: &Policy,
    list: &[Mend],
    difference: &Difference,
) -> String {
    let head = text_report(kind, (text, found_in));
    head + &list_report(policy, list, difference)
}

/// The report of a difference in a list of calls on a feed.
pub fn feed_report(kind: &str, policy: &Policy, list: &[Step], difference: &Difference) -> String {
    format!("difference in {kind}\n") + &list_report(policy, list, difference)
}

/// The report of a difference in a list of calls on a store.
pub fn store_report(
    policy: &Policy,
    begin: &store_case::Begin,
    list: &[store_case::Step],
    difference: &Difference,
) -> String {
    format!("difference in stores\n  store     {begin}\n") + &list_report(policy, list, difference)
}

/// The lines on the policy and on the calls of a list, and the difference.
fn list_report(policy: &Policy, list: &[impl Display], difference: &Difference) -> String {
    let mut report = format!("  policy    {}", policy.name);
    // Writing to a string does not fail.
    if policy.name != Policy::DEFAULT {
        let _ = write!(report, ", {}", hexadecimal(&policy.bytes));
    }
    report.push('\n');
    for (number, call) in (1..).zip(list) {
        let _ = writeln!(report, "  list {number:<5}{call}");
    }
    let _ = write!(report, "{difference}");
    report
}

/// The first lines of a report: the kind of the case and its text.
pub fn text_report(kind: &str, (text, found_in): (&[u8], usize)) -> String {
    let text = hexadecimal(text);
    format!("difference in {kind}, in a text of {found_in} bytes\n  text      {text}\n")
}
