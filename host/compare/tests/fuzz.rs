//! The stored inputs of the fuzzer, on the linked library.

use compare::library::Library;
use tilghorz_comparison::fuzz::corpus::stored;
use tilghorz_comparison::fuzz::run;

#[test]
fn the_library_has_no_difference_on_the_stored_inputs() {
    let mut made = 0;
    for input in stored() {
        match run(&Library, &input) {
            Ok(calls) => made += calls,
            Err(difference) => panic!("{difference}\n  input     {input:02x?}"),
        }
    }
    assert!(made > 1000, "only {made} calls");
}
