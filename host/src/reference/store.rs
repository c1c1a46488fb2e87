//! Storage that clients share: document 02, (x), read as a ledger. It has what is left of each reserve and of the common
//! part, and what each client has taken out of the common part. A filing takes from the reserve first, and a release
//! gives back to the common part first: "overflow first".
//!
//! The lent bytes of a store are this ledger, number by number.

use super::calls::Draft;
use crate::calls::Answer;

/// "Up to 16 clients".
pub const CLIENTS: usize = 16;
/// The numbers from 0 to 255.
pub const NUMBERS: usize = 256;
/// The bytes of a store.
pub const STORE_BYTES: usize = 8 * (1 + CLIENTS * (2 + NUMBERS));

/// The largest value of a word.
pub const MOST_VALUE: u64 = (1 << 56) - 1;

/// A client above 15, a number above 255, a number in use, or one that is not.
const BAD: Answer = Answer::new(13, 0);

/// What one client has.
#[derive(Debug, Clone, PartialEq, Eq)]
struct Account {
    reserve_left: u64,
    out_of_common: u64,
    filed: [Option<u64>; NUMBERS],
}

/// A store.
#[derive(Debug, Clone, PartialEq, Eq)]
pub struct Store {
    common_left: u64,
    accounts: Vec<Account>,
}

impl Store {
    /// Begins a store: 13 for reserves that are no whole numbers or more than 16, 14 if they "pass C, with C".
    pub fn begin(capacity: u64, reserves: &[u8]) -> Result<Self, Answer> {
        let (numbers, rest) = reserves.as_chunks::<8>();
        if !rest.is_empty() || numbers.len() > CLIENTS {
            return Err(BAD);
        }
        let mut reserves: Vec<u64> = numbers.iter().map(|of| u64::from_le_bytes(*of)).collect();
        let sum: u128 = reserves.iter().map(|reserve| u128::from(*reserve)).sum();
        let common = u128::from(capacity).checked_sub(sum);
        let Some(common) = common.and_then(|common| u64::try_from(common).ok()) else {
            return Err(Answer::new(14, capacity.min(MOST_VALUE)));
        };
        // "Each has a reserve, 0 if none is named".
        reserves.resize(CLIENTS, 0);
        let account = |reserve_left| Account {
            reserve_left,
            out_of_common: 0,
            filed: [None; NUMBERS],
        };
        Ok(Self {
            common_left: common,
            accounts: reserves.into_iter().map(account).collect(),
        })
    }

    /// Whether a filing under this number is refused by 13.
    #[must_use]
    pub fn is_bad(&self, client: u64, number: u64) -> bool {
        let place = place(client, number);
        place.is_none_or(|(client, number)| self.accounts[client].filed[number].is_some())
    }

    /// The number of bytes that fit: "what is left of the client's reserve and of the common part together".
    #[must_use]
    pub fn fits(&self, client: usize) -> u64 {
        let own = self.accounts[client].reserve_left;
        own.saturating_add(self.common_left)
    }

    /// What the other clients have taken out of the common part.
    #[must_use]
    pub fn taken_by_others(&self, client: usize) -> u64 {
        let others = self.accounts.iter().enumerate();
        let others = others.filter(|(of, _)| *of != client);
        others.fold(0, |sum, (_, account)| {
            sum.saturating_add(account.out_of_common)
        })
    }

    /// What is left of the common part.
    #[must_use]
    pub const fn common_left(&self) -> u64 {
        self.common_left
    }

    /// What a client has taken out of the common part.
    #[must_use]
    pub fn out_of_common(&self, client: usize) -> u64 {
        self.accounts[client].out_of_common
    }

    /// The store with a charge: 13, then 14 with the number of bytes that would fit.
    pub fn charge(&self, client: u64, number: u64, bytes: u64) -> Result<Self, Answer> {
        let place = place(client, number).filter(|_| !self.is_bad(client, number));
        let Some((client, number)) = place else {
            return Err(BAD);
        };
        let fits = self.fits(client);
        if bytes > fits {
            return Err(Answer::new(14, fits));
        }
        let mut after = self.clone();
        let account = &mut after.accounts[client];
        let own = bytes.min(account.reserve_left);
        account.reserve_left -= own;
        account.out_of_common = account.out_of_common.saturating_add(bytes - own);
        account.filed[number] = Some(bytes);
        after.common_left = after.common_left.saturating_sub(bytes - own);
        Ok(after)
    }

    /// The bytes that a release gives back, and the store after it: 13 if the number is not in use.
    pub fn release(&self, client: u64, number: u64) -> Result<(u64, Self), Answer> {
        let mut after = self.clone();
        let (client, number) = place(client, number).ok_or(BAD)?;
        let account = &mut after.accounts[client];
        let bytes = account.filed[number].take().ok_or(BAD)?;
        let common = bytes.min(account.out_of_common);
        account.out_of_common -= common;
        account.reserve_left = account.reserve_left.saturating_add(bytes - common);
        after.common_left = after.common_left.saturating_add(common);
        Ok((bytes, after))
    }

    /// The bytes charged to a client: the lengths filed and not yet released. 13 for a client above 15.
    pub fn used(&self, client: u64) -> Result<u64, Answer> {
        let (client, _) = place(client, 0).ok_or(BAD)?;
        let filed = self.accounts[client].filed.iter().flatten();
        Ok(filed.fold(0, |sum, bytes| sum.saturating_add(*bytes)))
    }

    /// The store of some bytes.
    fn read(bytes: &[u8]) -> Option<Self> {
        if bytes.len() != STORE_BYTES {
            return None;
        }
        let (words, _) = bytes.as_chunks::<8>();
        let mut words = words.iter().map(|word| u64::from_le_bytes(*word));
        let mut next = || words.next().unwrap_or_default();
        let common_left = next();
        let accounts = (0..CLIENTS).map(|_| Account {
            reserve_left: next(),
            out_of_common: next(),
            filed: std::array::from_fn(|_| next().checked_sub(1)),
        });
        Some(Self {
            common_left,
            accounts: accounts.collect(),
        })
    }

    /// The bytes of a store.
    fn bytes(&self) -> Vec<u8> {
        let accounts = self.accounts.iter().flat_map(|account| {
            let filed = account.filed.iter();
            let filed = filed.map(|bytes| bytes.map_or(0, |bytes| bytes.wrapping_add(1)));
            [account.reserve_left, account.out_of_common]
                .into_iter()
                .chain(filed)
        });
        let words = [self.common_left].into_iter().chain(accounts);
        words.flat_map(u64::to_le_bytes).collect()
    }
}

/// The places of a client and a number, where both are within their limits.
fn place(client: u64, number: u64) -> Option<(usize, usize)> {
    let client = usize::try_from(client).ok().filter(|of| *of < CLIENTS)?;
    let number = usize::try_from(number).ok().filter(|of| *of < NUMBERS)?;
    Some((client, number))
}

/// What filing does with an output of this room, by formatting's draft: formatting's refusals first. The second is the
/// store after it, if the filing is accepted.
#[must_use]
pub fn draft(
    store: Option<&Store>,
    format: &Draft,
    text_len: usize,
    [client, number]: [u64; 2],
    room: usize,
) -> (Draft, Option<Store>) {
    let (answer, written) = format.with_room(room);
    let charge = match answer.number {
        Answer::DONE => written.len(),
        255 => text_len,
        _ => return (Draft::Refused(answer), None),
    };
    let after = store.ok_or(BAD);
    match after.and_then(|store| store.charge(client, number, charge as u64)) {
        Ok(after) => (format.clone(), Some(after)),
        Err(refusal) => (Draft::Refused(refusal), None),
    }
}

/// Begins a store in lent bytes: 8 with the bytes of a store, and then its own refusals.
pub fn begin(capacity: u64, reserves: &[u8], bytes: &mut [u8]) -> Answer {
    let value = STORE_BYTES as u64;
    let Some(front) = bytes.get_mut(..STORE_BYTES) else {
        return Answer::new(8, value);
    };
    match Store::begin(capacity, reserves) {
        Err(refusal) => refusal,
        Ok(store) => {
            front.copy_from_slice(&store.bytes());
            Answer::new(Answer::DONE, value)
        }
    }
}

/// Files a text of this length into lent bytes, by formatting's draft.
pub fn file(
    bytes: &mut [u8],
    format: &Draft,
    text_len: usize,
    place: [u64; 2],
    out: &mut [u8],
) -> Answer {
    let store = Store::read(bytes);
    let (draft, after) = draft(store.as_ref(), format, text_len, place, out.len());
    let (answer, written) = draft.with_room(out.len());
    if let Some(after) = after {
        out[..written.len()].copy_from_slice(written);
        bytes.copy_from_slice(&after.bytes());
    }
    answer
}

/// Releases a message in lent bytes.
pub fn release(bytes: &mut [u8], client: u64, number: u64) -> Answer {
    let store = Store::read(bytes).ok_or(BAD);
    match store.and_then(|store| store.release(client, number)) {
        Err(refusal) => refusal,
        Ok((given, after)) => {
            bytes.copy_from_slice(&after.bytes());
            Answer::new(Answer::DONE, given.min(MOST_VALUE))
        }
    }
}

/// What a client uses, by lent bytes.
#[must_use]
pub fn used(bytes: &[u8], client: u64) -> Answer {
    let store = Store::read(bytes).ok_or(BAD);
    match store.and_then(|store| store.used(client)) {
        Err(refusal) => refusal,
        Ok(used) => Answer::new(Answer::DONE, used.min(MOST_VALUE)),
    }
}
