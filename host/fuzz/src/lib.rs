//! What libFuzzer calls: one input of bytes, read as a list of calls of the linked library. A difference from the reading of
//! documents 01 and 02 is printed, and ends the process by a signal; libFuzzer then writes the input to a file.
//!
//! The variable `TILGHORZ_FAULT` names a fault that is planted into the calls, to see how soon the fuzzer finds it.

use std::env;
use std::process::abort;
use std::slice;
use std::sync::LazyLock;

use compare::library::Library;
use tilghorz_comparison::calls::Calls;
use tilghorz_comparison::comparison::faults::{FAULTS, Fault};
use tilghorz_comparison::comparison::faulty::Faulty;
use tilghorz_comparison::fuzz::run;

/// The variable that names a fault.
const VARIABLE: &str = "TILGHORZ_FAULT";

/// The fault that the variable names.
static PLANTED: LazyLock<Option<Fault>> = LazyLock::new(|| {
    let name = env::var(VARIABLE).ok().filter(|name| !name.is_empty())?;
    let found = FAULTS.iter().find(|(known, _)| *known == name);
    match found {
        Some((_, fault)) => Some(*fault),
        None => {
            eprintln!("{VARIABLE}={name}: not the name of a fault");
            abort()
        }
    }
});

/// Makes the calls of an input. The status is always 0: the input may be kept.
///
/// # Safety
/// `data` must point to `size` bytes that nothing writes during the call.
#[unsafe(no_mangle)]
pub unsafe extern "C" fn LLVMFuzzerTestOneInput(data: *const u8, size: usize) -> i32 {
    let input = match size {
        0 => &[],
        // SAFETY: libFuzzer hands over `size` bytes.
        _ => unsafe { slice::from_raw_parts(data, size) },
    };
    match *PLANTED {
        None => check(&Library, input),
        Some(fault) => check(&Faulty::new(&Library, fault), input),
    }
    0
}

/// Ends the process if there is a difference.
fn check(calls: &dyn Calls, input: &[u8]) {
    if let Err(difference) = run(calls, input) {
        eprintln!("difference\n{difference}");
        abort();
    }
}
