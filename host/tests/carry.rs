//! The reading of document 02, (xii): a policy carried over, on examples made by hand.

use tilghorz_comparison::calls::Answer;
use tilghorz_comparison::reference::calls::Draft;
use tilghorz_comparison::reference::carry::carry;
use tilghorz_comparison::reference::{characters, policy};

/// The bytes of a list.
fn list(entries: &[u64]) -> Vec<u8> {
    entries
        .iter()
        .flat_map(|entry| entry.to_le_bytes())
        .collect()
}

/// Our own list.
fn ours() -> Vec<u64> {
    (0..).map_while(characters::entry).map(u64::from).collect()
}

/// Whether one of the four sets of a policy of ours holds an entry.
fn holds(bytes: &[u8], set: usize, character: u64) -> bool {
    let entry = ours().iter().position(|of| *of == character);
    let (byte, bit) = policy::place(set, entry.expect("an entry"));
    bytes[byte] & bit != 0
}

/// The bytes that are written.
fn carried(entries: &[u64], old_policy: &[u8]) -> Vec<u8> {
    match carry(&list(entries), old_policy) {
        Draft::Writes { bytes, .. } => bytes,
        other => panic!("{other:?}"),
    }
}

#[test]
fn an_empty_list_gives_the_default_policy() {
    assert_eq!(carried(&[], &[0; 8]), policy::default_policy());
    assert_eq!(carried(&[], &[0xFF; 8]), policy::default_policy());
}

#[test]
fn our_own_list_gives_the_policy_under_our_version() {
    let mut old = policy::default_policy().to_vec();
    old[..8].fill(0xEE);
    assert_eq!(carried(&ours(), &old), policy::default_policy());
}

#[test]
fn an_entry_keeps_its_memberships_at_another_place() {
    // 22 is no entry of ours, so 23 and 2764 stand one place later than without it.
    let entries = [0x22, 0x23, 0x2764];
    let mut old = [0; 40];
    old[8] = 0b101;
    old[16] = 0b010;
    old[32] = 0b100;
    let new = carried(&entries, &old);
    for (set, character, expected) in [
        (0, 0x23, false),
        (0, 0x2764, true),
        (1, 0x23, true),
        (1, 0x2764, false),
        (2, 0x23, false),
        (2, 0x2764, false),
        (3, 0x23, false),
        (3, 0x2764, true),
    ] {
        assert_eq!(holds(&new, set, character), expected, "{set} {character:X}");
    }
    let default = policy::default_policy();
    for character in ours().into_iter().filter(|entry| !entries.contains(entry)) {
        for set in 0..4 {
            assert_eq!(holds(&new, set, character), holds(default, set, character));
        }
    }
}

#[test]
fn the_refusals_come_in_order() {
    let refused = |entries: &[u8], old: &[u8]| match carry(entries, old) {
        Draft::Refused(Answer { number, .. }) => number,
        _ => 0,
    };
    let two = list(&[0x23, 0x2764]);
    let mut unused = [0; 40];
    unused[8] = 0b100;
    assert_eq!(refused(&two, &[0; 40]), 0);
    assert_eq!(refused(&two, &unused), 2);
    assert_eq!(refused(&two, &[0; 32]), 16);
    assert_eq!(refused(&two[..15], &[0; 40]), 16);
    assert_eq!(refused(&list(&[0x23, 0x23]), &unused), 16);
    assert_eq!(refused(&list(&[0x2764, 0x23]), &[0; 40]), 16);
    // 64 entries fill a word, so there is no unused bit; with 65 there are 63.
    let many: Vec<u64> = (0..65).collect();
    assert_eq!(refused(&list(&many[..64]), &[0xFF; 40]), 0);
    assert_eq!(refused(&list(&many), &[0xFF; 72]), 2);
}
