//! The stored inputs of the fuzzer: nothing is found in the reading of documents 01 and 02, every function is called, and
//! planted faults are reported.

use std::fs;
use std::path::Path;

use tilghorz_comparison::calls::{Calls, Reference};
use tilghorz_comparison::comparison::faults::FAULTS;
use tilghorz_comparison::comparison::faulty::Faulty;
use tilghorz_comparison::comparison::lent::Difference;
use tilghorz_comparison::fuzz::corpus::stored;
use tilghorz_comparison::fuzz::counted::Counted;
use tilghorz_comparison::fuzz::{names, run};

/// The faults that no stored input shows: those of the longest text, of a repaired text that is too long, and of a thread
/// that reaches the limit. The fuzzer has no text of just the longest length.
const OF_LONG_TEXTS: [&str; 3] = ["limit-too-low", "limit-on-repaired", "limit-unfinished"];

/// Makes the calls of all stored inputs, until there is a difference.
fn replay(calls: &dyn Calls) -> Result<u64, Difference> {
    let inputs = stored();
    assert!(!inputs.is_empty());
    let mut inputs = inputs.iter();
    inputs.try_fold(0, |made, input| Ok(made + run(calls, input)?))
}

#[test]
fn the_reference_has_no_difference_from_itself() {
    let made = replay(&Reference);
    assert!(made.as_ref().is_ok_and(|made| *made > 0), "{made:?}");
}

/// The functions that the header declares, but for `tilghorz_`.
fn declared() -> Vec<String> {
    let header = Path::new(env!("CARGO_MANIFEST_DIR")).join("../include/tilghorz.h");
    let header = fs::read_to_string(header).expect("the header");
    let lines = header.lines();
    let names = lines.filter_map(|line| line.strip_prefix("uint64_t tilghorz_")?.split_once('('));
    names.map(|(name, _)| name.to_owned()).collect()
}

#[test]
fn every_function_of_the_header_is_called_with_some_stored_input() {
    let declared = declared();
    assert_eq!(declared, names());
    let counted = Counted::new(&Reference);
    replay(&counted).expect("no difference");
    for name in declared {
        assert!(
            counted.number(&name) >= 10,
            "{name}: {}",
            counted.number(&name)
        );
    }
}

#[test]
fn every_planted_fault_is_reported_but_for_those_of_long_texts() {
    let is_missed = |fault| replay(&Faulty::new(&Reference, fault)).is_ok();
    let missed = FAULTS.iter().filter(|(_, fault)| is_missed(*fault));
    let missed: Vec<&str> = missed.map(|(name, _)| *name).collect();
    assert_eq!(missed, OF_LONG_TEXTS);
}

#[test]
fn a_report_has_the_call_its_inputs_and_both_answers() {
    let fault = FAULTS.iter().find(|(name, _)| *name == "keycap-rule");
    let (_, fault) = fault.expect("the fault");
    let difference = replay(&Faulty::new(&Reference, *fault)).expect_err("a difference");
    let report = difference.to_string();
    for line in ["  call      ", "  expected  ", "  found     "] {
        assert!(report.contains(line), "{report}");
    }
    assert!(difference.call.contains(" bytes: "), "{report}");
}
