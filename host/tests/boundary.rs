//! The calls at the boundary: nothing is found in the reading of document 01, and faults are.

use tilghorz_comparison::boundary::case::{Call, Case, Inputs, Layout};
use tilghorz_comparison::boundary::command::{Options, run};
use tilghorz_comparison::boundary::placed::{Placed, Spot};
use tilghorz_comparison::calls::{Calls, Reference};
use tilghorz_comparison::comparison::faults::Fault;
use tilghorz_comparison::comparison::faulty::Faulty;
use tilghorz_comparison::reference::policy::default_policy;

/// A short run.
const SHORT: Options = Options {
    cases: 20,
    seed: 1,
    limits: false,
};

/// What a run prints, and whether there was no difference.
fn printed(calls: &dyn Calls) -> (bool, String) {
    let mut out = Vec::new();
    let is_same = run(calls, &SHORT, &mut out).expect("printed");
    (is_same, String::from_utf8(out).expect("a text"))
}

#[test]
fn the_reference_has_no_difference_from_itself() {
    let (is_same, text) = printed(&Reference);
    assert!(is_same && text.ends_with("no difference\n"), "{text}");
}

#[test]
fn faults_are_reported_with_a_reduced_text() {
    for (fault, kind) in [
        (Fault::ByteAfter, "sizes"),
        (Fault::RefusalWrites, "sizes"),
        (Fault::WantedLength, "sizes"),
        (Fault::BytesBeforeNumber, "decisions"),
        (Fault::DefaultPolicy, "default policy"),
        (Fault::AnyVersion, "policies"),
        (Fault::VersionAfterBits, "policies"),
        (Fault::VersionBeforeLength, "policies"),
        (Fault::ReplacesEachByte, "sizes"),
        (Fault::LosesCutEnd, "sizes"),
        (Fault::WholeUnwritten, "sizes"),
        (Fault::WantsThreeTimes, "sizes"),
        (Fault::TipOrder, "sizes"),
        (Fault::RoomByNeed, "feeds"),
        (Fault::RefusedFeedChanges, "feeds"),
        (Fault::RefusedPieceWrites, "feeds"),
        (Fault::LastEnd, "sheets"),
        (Fault::DownUnclosed, "sheets"),
        (Fault::RoomBeforeSheet, "sheets"),
        (Fault::RefusedSheetWrites, "sheets"),
        (Fault::ByteAfterPolicy, "sheets"),
        (Fault::SheetLength, "sheets"),
        (Fault::RoomBeforeList, "carries"),
        (Fault::RefusedCarryWrites, "carries"),
        (Fault::ByteAfterCarried, "carries"),
        (Fault::RefusedFilingWrites, "stores"),
        (Fault::RefusedFilingCharges, "stores"),
        (Fault::NeverFull, "stores"),
    ] {
        let (is_same, text) = printed(&Faulty::new(&Reference, fault));
        assert!(!is_same, "{fault:?}");
        assert!(
            text.contains(&format!("difference in {kind}\n  call ")),
            "{text}"
        );
    }
}

/// Calls that read the text to be formatted in whole words of 8 bytes, and so miss its last bytes.
struct WholeWords;

impl Calls for WholeWords {
    fn format(&self, text: &[u8], policy: &[u8], out: &mut [u8]) -> u64 {
        Reference.format(&text[..text.len() / 8 * 8], policy, out)
    }

    fn list(&self, text: &[u8], policy: &[u8], table: &mut [u8]) -> u64 {
        Reference.list(text, policy, table)
    }

    fn mend(&self, text: &[u8], policy: &[u8], at: u64, decisions: &[u8], out: &mut [u8]) -> u64 {
        Reference.mend(text, policy, at, decisions, out)
    }

    fn scan(&self, text: &[u8], table: &mut [u8]) -> u64 {
        Reference.scan(text, table)
    }

    fn repair(&self, text: &[u8], out: &mut [u8]) -> u64 {
        Reference.repair(text, out)
    }

    fn around(
        &self,
        text: &[u8],
        policy: &[u8],
        from: u64,
        to: u64,
        inside: &mut [u8],
        sharing: &mut [u8],
    ) -> u64 {
        Reference.around(text, policy, from, to, inside, sharing)
    }

    fn nearest(&self, text: &[u8], policy: &[u8], offset: u64, row: &mut [u8]) -> u64 {
        Reference.nearest(text, policy, offset, row)
    }

    fn cut(&self, bytes: &[u8], offset: u64) -> u64 {
        Reference.cut(bytes, offset)
    }

    fn feed_begin(&self, policy: &[u8], feed: &mut [u8]) -> u64 {
        Reference.feed_begin(policy, feed)
    }

    fn feed_piece(&self, feed: &mut [u8], piece: &[u8], out: &mut [u8]) -> u64 {
        Reference.feed_piece(feed, piece, out)
    }

    fn feed_end(&self, feed: &mut [u8], out: &mut [u8]) -> u64 {
        Reference.feed_end(feed, out)
    }

    fn feed_policy(&self, feed: &mut [u8], policy: &[u8]) -> u64 {
        Reference.feed_policy(feed, policy)
    }

    fn feed_totals(&self, feed: &[u8], totals: &mut [u8]) -> u64 {
        Reference.feed_totals(feed, totals)
    }

    fn read_sheet(&self, sheet: &[u8], out: &mut [u8]) -> u64 {
        Reference.read_sheet(sheet, out)
    }

    fn write_sheet(&self, policy: &[u8], out: &mut [u8]) -> u64 {
        Reference.write_sheet(policy, out)
    }

    fn carry_policy(&self, entries: &[u8], policy: &[u8], out: &mut [u8]) -> u64 {
        Reference.carry_policy(entries, policy, out)
    }

    fn tips(&self, text: &[u8], policy: &[u8], table: &mut [u8]) -> u64 {
        Reference.tips(text, policy, table)
    }

    fn store_begin(&self, capacity: u64, reserves: &[u8], store: &mut [u8]) -> u64 {
        Reference.store_begin(capacity, reserves, store)
    }

    fn store_file(
        &self,
        store: &mut [u8],
        text: &[u8],
        policy: &[u8],
        client: u64,
        number: u64,
        out: &mut [u8],
    ) -> u64 {
        Reference.store_file(store, text, policy, client, number, out)
    }

    fn store_release(&self, store: &mut [u8], client: u64, number: u64) -> u64 {
        Reference.store_release(store, client, number)
    }

    fn store_used(&self, store: &[u8], client: u64) -> u64 {
        Reference.store_used(store, client)
    }

    fn default_policy(&self, out: &mut [u8]) -> u64 {
        Reference.default_policy(out)
    }

    fn variation_entry(&self, index: u64) -> u64 {
        Reference.variation_entry(index)
    }

    fn version(&self) -> u64 {
        Reference.version()
    }
}

#[test]
fn a_text_that_is_read_in_part_is_reported() {
    let (is_same, text) = printed(&WholeWords);
    assert!(!is_same && text.contains("Format on 1 bytes: 31"), "{text}");
}

#[test]
fn an_input_stands_at_its_spot() {
    let placed = Placed::new(b"abc", Spot::at_the_end(3));
    assert_eq!(placed.bytes(), b"abc");
    assert!(placed.is_as_made(b"abc", Spot::at_the_end(3)));
    assert!(!placed.is_as_made(b"abd", Spot::at_the_end(3)));
    assert!(Placed::new(b"", Spot::EXACT).bytes().is_empty());
}

#[test]
fn a_case_names_its_call_and_its_inputs() {
    let inputs = Inputs::new(b"1\xEF\xB8\x8E", default_policy(), &[0]);
    let case = Case {
        call: Call::Mend(0),
        inputs,
    };
    let expected = "Mend(0) on 4 bytes: 31 EF B8 8E, policy of 200 bytes, decisions [0]";
    assert_eq!(case.to_string(), expected);
    let layout = Layout::all(Spot::EXACT);
    assert_eq!(case.check(&Reference, &case.draft(), 9, &layout), Ok(()));
}

#[test]
fn arguments_are_read() {
    let parse = |text: &str| Options::parse(text.split_whitespace().map(str::to_owned));
    let expected = Options {
        cases: 5,
        seed: 7,
        limits: true,
    };
    assert_eq!(parse("--cases 5 --seed 7 --limits"), Ok(expected));
    for wrong in ["--cases", "--cases x", "--other", "5"] {
        assert!(parse(wrong).is_err(), "{wrong}");
    }
}
