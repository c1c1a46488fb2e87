//! The faults that are planted into calls on stores.

use std::cell::RefCell;

use super::faults::Fault;
use super::faulty::flip;
use crate::calls::{Answer, Calls};
use crate::reference::policy::default_policy;
use crate::reference::store::{CLIENTS, Store};

/// Calls on stores with a planted fault. The reading of the store that was begun last is kept for it.
pub struct FaultyStore<'a> {
    calls: &'a dyn Calls,
    fault: Fault,
    reading: RefCell<Option<Store>>,
}

impl<'a> FaultyStore<'a> {
    /// Plants a fault.
    #[must_use]
    pub fn new(calls: &'a dyn Calls, fault: Fault) -> Self {
        Self {
            calls,
            fault,
            reading: RefCell::default(),
        }
    }

    /// Begins a store.
    pub fn begin(&self, capacity: u64, reserves: &[u8], store: &mut [u8]) -> Answer {
        let answer = Answer::of_word(self.calls.store_begin(capacity, reserves, store));
        if self.fault == Fault::ReservesWrap && answer.number == 14 {
            let numbers = reserves.as_chunks::<8>().0.iter();
            let sum = numbers.fold(0u64, |sum, of| sum.wrapping_add(u64::from_le_bytes(*of)));
            if sum <= capacity {
                return Answer::of_word(self.calls.store_begin(capacity, &[], store));
            }
        }
        if answer.number == Answer::DONE {
            *self.reading.borrow_mut() = Store::begin(capacity, reserves).ok();
        }
        answer
    }

    /// Files a text.
    pub fn file(
        &self,
        store: &mut [u8],
        text: &[u8],
        policy: &[u8],
        [client, number]: [u64; 2],
        out: &mut [u8],
    ) -> Answer {
        let before = store.to_vec();
        let word = (self.calls).store_file(store, text, policy, client, number, out);
        let answer = Answer::of_word(word);
        let reading = &mut *self.reading.borrow_mut();
        match (self.fault, answer.number) {
            (Fault::RefusedFilingWrites, 13 | 14) => flip(out, 0),
            (Fault::RefusedFilingCharges, 14) => {
                let _ = (self.calls).store_file(store, b"", policy, client, number, &mut []);
            }
            (Fault::NeverFull, 14) => {
                return Answer::of_word(self.calls.format(text, policy, out));
            }
            (Fault::CommonOfEach, 14) => {
                let others = reading.as_ref().map_or(0, |reading| {
                    reading.taken_by_others((client as usize).min(CLIENTS - 1))
                });
                return Answer::new(14, answer.value + others);
            }
            (Fault::PlaceBeforeRoom, 8)
                if reading.as_ref().is_some_and(|of| of.is_bad(client, number)) =>
            {
                return Answer::new(13, 0);
            }
            (Fault::UnchangedFree, 255) => store.copy_from_slice(&before),
            (Fault::EmptyUsesNone, 255) if text.is_empty() => store.copy_from_slice(&before),
            (Fault::ReserveLent, Answer::DONE | 255) => {
                // Refused, as if the common part had to hold every charge.
                let charge = match answer.number {
                    255 => text.len() as u64,
                    _ => answer.value,
                };
                let after = reading
                    .as_ref()
                    .and_then(|of| of.charge(client, number, charge).ok());
                if let (Some(of), Some(after)) = (reading.as_ref(), &after)
                    && of.common_left() == after.common_left()
                    && of.common_left() < charge
                {
                    store.copy_from_slice(&before);
                    return Answer::new(14, of.common_left());
                }
            }
            _ => {}
        }
        if !answer.is_refusal() {
            let charge = match answer.number {
                255 => text.len() as u64,
                _ => answer.value,
            };
            let after = reading
                .as_ref()
                .and_then(|of| of.charge(client, number, charge).ok());
            *reading = after;
        }
        answer
    }

    /// Releases a message.
    pub fn release(&self, store: &mut [u8], client: u64, number: u64) -> Answer {
        let answer = Answer::of_word(self.calls.store_release(store, client, number));
        let reading = &mut *self.reading.borrow_mut();
        match (self.fault, answer.number) {
            (Fault::ReleasesTwice, 13) if client < CLIENTS as u64 && number < 256 => {
                return Answer::new(Answer::DONE, 0);
            }
            (Fault::ReserveFirst, Answer::DONE) => {
                let taken = reading
                    .as_ref()
                    .map_or(0, |of| of.out_of_common(client as usize));
                self.keep_taken(store, client, taken.min(answer.value));
            }
            _ => {}
        }
        let after = reading
            .as_ref()
            .and_then(|of| of.release(client, number).ok());
        if let Some((_, after)) = after {
            *reading = Some(after);
        }
        answer
    }

    /// What a client uses.
    pub fn used(&self, store: &[u8], client: u64) -> Answer {
        Answer::of_word(self.calls.store_used(store, client))
    }

    /// After a release that gives back to the reserve first, these bytes stay taken. They are filed under another
    /// number.
    fn keep_taken(&self, store: &mut [u8], client: u64, bytes: u64) {
        let text = vec![b'a'; bytes as usize];
        let policy = default_policy();
        let _ = (self.calls).store_file(store, &text, policy, client, 254, &mut []);
    }
}
