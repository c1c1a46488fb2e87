//! The calls on stores. There are two stores, so that calls on them mix.

use super::feeds::begin;
use super::free::Free;
use super::machine::{Lent, Machine, describe, stay};
use crate::boundary::placed::Spot;
use crate::calls::{Answer, Calls};
use crate::comparison::lent::{Difference, MARGIN, lend_feed, same};
use crate::comparison::store_case::lend_store;
use crate::reference::calls as reading;
use crate::reference::store::{self, CLIENTS, Store};

/// The most reserves that an input hands over.
const MOST_RESERVES: usize = 20;

/// The refusal of a bad client or number, and of bytes of another length than a store's.
const BAD: Answer = Answer::new(13, 0);

/// The bytes of a store, and the reading of it. There is no reading of bytes that no call wrote.
#[derive(Debug, Clone, Default)]
pub struct StoreSlot {
    bytes: Vec<u8>,
    reading: Option<Store>,
    /// Whether a step has used it.
    is_used: bool,
}

/// The capacity and the reserves of the store that is begun when a step first uses it.
const CAPACITY: u64 = 40;
const RESERVES: [u64; 3] = [12, 0, 5];

impl Machine<'_> {
    /// The number of a store. When a step first uses the first one, it is begun; the other is then no bytes.
    fn store_slot(&mut self) -> Result<usize, Difference> {
        let slot = self.input.below(self.stores.len());
        if slot + 1 < self.stores.len() && !self.stores[slot].is_used {
            let reserves = RESERVES.map(u64::to_le_bytes).concat();
            let reserves = Lent::new(&reserves, Spot::EXACT);
            self.begin_store(slot, CAPACITY, &reserves, self.store_bytes)?;
        }
        self.stores[slot].is_used = true;
        Ok(slot)
    }

    /// `tilghorz_store_begin`, in buffers with different bytes: the store must be the same.
    pub(super) fn store_begin(&mut self) -> Result<(), Difference> {
        let slot = self.input.below(self.stores.len());
        let capacity = self.input.number();
        let count = self.input.below(MOST_RESERVES);
        let reserves: Vec<u64> = (0..count).map(|_| self.input.number()).collect();
        let mut reserves: Vec<u8> = reserves.iter().flat_map(|of| of.to_le_bytes()).collect();
        if self.input.byte() >= 0xE0 {
            reserves.push(0);
        }
        let reserves = Lent::new(&reserves, self.input.spot());
        let room = self.input.room(self.store_bytes, 1);
        self.begin_store(slot, capacity, &reserves, room)
    }

    /// Begins a store in a buffer of this room.
    fn begin_store(
        &mut self,
        slot: usize,
        capacity: u64,
        reserves: &Lent,
        room: usize,
    ) -> Result<(), Difference> {
        let reading = Store::begin(capacity, reserves.bytes());
        let value = self.store_bytes as u64;
        let expected = match &reading {
            _ if room < self.store_bytes => Answer::new(8, value),
            Err(refusal) => *refusal,
            Ok(_) => Answer::new(Answer::DONE, value),
        };
        let name = || {
            let what = format!("store_begin, capacity {capacity}, room {room}");
            describe(&what, &[reserves])
        };
        let call = |calls: &dyn Calls, store: &mut [u8]| {
            calls.store_begin(capacity, reserves.bytes(), store)
        };
        let bytes = begin(self.calls, name, expected, [MARGIN; 2], room, call)?;
        stay(name, &[reserves])?;
        self.made += 1;
        if let (Some(bytes), Ok(reading)) = (bytes, reading) {
            self.stores[slot] = StoreSlot {
                bytes,
                reading: Some(reading),
                is_used: true,
            };
        }
        Ok(())
    }

    /// A client and a number, most often good ones.
    fn client_and_number(&mut self) -> [u64; 2] {
        match self.input.byte() {
            byte @ 0..0xE0 => [u64::from(byte) % CLIENTS as u64, self.input.byte().into()],
            _ => [self.input.number(), self.input.number()],
        }
    }

    /// `tilghorz_store_file`.
    pub(super) fn store_file(&mut self) -> Result<(), Difference> {
        let slot = self.store_slot()?;
        let (text, policy) = (self.placed_text(), self.placed_policy());
        let [client, number] = self.client_and_number();
        let format = reading::format(text.bytes(), policy.bytes());
        let room = self.input.room(format.wanted(), 1);
        let margins = [self.input.margins(), self.input.margins()];
        let inputs = [&text, &policy];
        let name = || {
            let what = format!("store_file, client {client}, number {number}");
            describe(&what, &inputs)
        };
        let calls = self.calls;
        let call = |store: &mut [u8], out: &mut [u8]| {
            calls.store_file(store, text.bytes(), policy.bytes(), client, number, out)
        };
        self.made += 1;
        let StoreSlot { bytes, reading, .. } = &self.stores[slot];
        if reading.is_none() && bytes.len() == self.store_bytes {
            let free = Free {
                name: &name,
                numbers: &[1, 2, 3, 8, 13, 14, 15, 255],
                writes: true,
            };
            self.stores[slot].bytes = free.make(bytes, room, call)?;
            return stay(name, &inputs);
        }
        let place = [client, number];
        let (draft, after) =
            store::draft(reading.as_ref(), &format, text.bytes().len(), place, room);
        let changed = lend_feed(margins, name, bytes, &draft, room, call)?;
        stay(name, &inputs)?;
        if let (_, written @ [_, ..]) = draft.with_room(room) {
            self.last = written.to_vec();
        }
        if let Some(after) = after {
            self.stores[slot] = StoreSlot {
                bytes: changed,
                reading: Some(after),
                is_used: true,
            };
        }
        self.used(slot, client)
    }

    /// `tilghorz_store_release`.
    pub(super) fn store_release(&mut self) -> Result<(), Difference> {
        let slot = self.store_slot()?;
        let [client, number] = self.client_and_number();
        let calls = self.calls;
        let name = || format!("store_release, client {client}, number {number}");
        self.made += 1;
        let StoreSlot { bytes, reading, .. } = &self.stores[slot];
        if reading.is_none() && bytes.len() == self.store_bytes {
            let free = Free {
                name: &name,
                numbers: &[13],
                writes: false,
            };
            let call = |store: &mut [u8], _: &mut [u8]| calls.store_release(store, client, number);
            self.stores[slot].bytes = free.make(bytes, 0, call)?;
            return Ok(());
        }
        let released = match reading {
            None => Err(BAD),
            Some(reading) => reading.release(client, number),
        };
        let expected = match &released {
            Err(refusal) => *refusal,
            Ok((given, _)) => Answer::new(Answer::DONE, *given),
        };
        let changed = lend_store(name, bytes, expected, |store| {
            calls.store_release(store, client, number)
        })?;
        if let Ok((_, after)) = released {
            self.stores[slot] = StoreSlot {
                bytes: changed,
                reading: Some(after),
                is_used: true,
            };
        }
        self.used(slot, client)
    }

    /// `tilghorz_store_used`.
    pub(super) fn store_used(&mut self) -> Result<(), Difference> {
        let slot = self.store_slot()?;
        let [client, _] = self.client_and_number();
        self.used(slot, client)
    }

    /// Compares what a client uses.
    fn used(&mut self, slot: usize, client: u64) -> Result<(), Difference> {
        self.made += 1;
        let StoreSlot { bytes, reading, .. } = &self.stores[slot];
        let store = Lent::new(bytes, Spot::at_the_end(0));
        let found = Answer::of_word(self.calls.store_used(store.bytes(), client));
        let name = || describe(&format!("store_used, client {client}"), &[&store]);
        stay(name, &[&store])?;
        let expected = match reading {
            Some(reading) => match reading.used(client) {
                Err(refusal) => refusal,
                Ok(used) => Answer::new(Answer::DONE, used),
            },
            None if bytes.len() != self.store_bytes => BAD,
            None => {
                let again = Answer::of_word(self.calls.store_used(store.bytes(), client));
                let is_known = matches!(found.number, Answer::DONE | 13) && again == found;
                return same(name, &true, &is_known, bool::to_string);
            }
        };
        same(name, &expected, &found, Answer::to_string)
    }

    /// A store is then a copy of another.
    pub(super) fn copy_store(&mut self) -> Result<(), Difference> {
        let number = self.stores.len();
        let (from, to) = (self.store_slot()?, self.input.below(number));
        self.stores[to] = self.stores[from].clone();
        Ok(())
    }

    /// Changes a byte of a store, which is then none.
    pub(super) fn spoil_store(&mut self) -> Result<(), Difference> {
        let slot = self.store_slot()?;
        let (place, byte) = (self.input.pair(), self.input.byte());
        let StoreSlot { bytes, reading, .. } = &mut self.stores[slot];
        if let Some(place) = place.checked_rem(bytes.len())
            && bytes[place] != byte
        {
            bytes[place] = byte;
            *reading = None;
        }
        Ok(())
    }

    /// Bytes as a store: of its length, or of another.
    pub(super) fn store_of_bytes(&mut self) -> Result<(), Difference> {
        let slot = self.store_slot()?;
        let length = self.input.room(self.store_bytes, 8);
        let bytes = self.input.bytes();
        let bytes = bytes.iter().chain(&[0]).cycle().take(length);
        self.stores[slot] = StoreSlot {
            bytes: bytes.copied().collect(),
            reading: None,
            is_used: true,
        };
        Ok(())
    }
}
