//! Storage that clients share: document 02, (x).

use std::borrow::Cow;
use std::fmt::{self, Debug, Formatter};

use crate::calls::with_format_room;
use crate::{Formatted, Policy, Refusal, answer, sys};

/// A store of a capacity in bytes that up to 16 clients share.
///
/// Each client has a reserve, and what the reserves leave of the capacity is the common part. Filing formats a message
/// and charges its formatted length to a client, under a number from 0 to 255 that this client is not using. What a
/// client uses beyond its reserve comes out of the common part, and a release gives that back first. The store keeps
/// lengths and no texts: the caller files the text that it gets.
///
/// ```
/// use tilghorz::{Policy, Refusal, Store};
///
/// let policy = Policy::default();
/// // 20 bytes, of which 8 are reserved for client 0 and 4 for client 1. So 8 are common.
/// let mut store = Store::new(20, &[8, 4])?;
/// let heart = "\u{2764}".as_bytes();
/// assert_eq!(&*store.file(heart, &policy, 0, 7)?, "\u{2764}\u{FE0E}".as_bytes());
/// assert_eq!(store.used(0)?, 6);
///
/// // Client 1 has 4 bytes of its own and the common 8.
/// store.file(b"a dozen byte", &policy, 1, 0)?;
/// assert_eq!(store.file(b"", &policy, 1, 0), Err(Refusal::BadClientOrNumber));
/// assert_eq!(store.file(b"a", &policy, 1, 1), Err(Refusal::DoesNotFit { fits: 0 }));
///
/// // The reserve of client 0 stays its own.
/// assert_eq!(store.file(b"abc", &policy, 0, 8), Err(Refusal::DoesNotFit { fits: 2 }));
/// store.file(b"ab", &policy, 0, 8)?;
///
/// assert_eq!(store.release(1, 0)?, 12);
/// assert_eq!(store.used(1)?, 0);
/// # Ok::<(), Refusal>(())
/// ```
#[derive(Clone, PartialEq, Eq)]
pub struct Store {
    /// The store as the library has it.
    bytes: Box<[u8]>,
}

impl Store {
    /// Begins a store of a capacity in bytes. The reserves are those of the clients from 0 on; a client without one has
    /// the reserve 0.
    ///
    /// # Errors
    /// [`Refusal::BadClientOrNumber`] (13) for more than 16 reserves, and [`Refusal::DoesNotFit`] (14) with the capacity if
    /// the reserves sum to more.
    pub fn new(capacity: u64, reserves: &[u64]) -> Result<Self, Refusal> {
        let reserves: Vec<u8> = reserves.iter().flat_map(|of| of.to_le_bytes()).collect();
        let mut bytes = vec![0; sys::STORE_BYTES].into_boxed_slice();
        let word = sys::store_begin(capacity, &reserves, &mut bytes);
        match answer::read(word) {
            // A word has 56 bits for the capacity.
            Err(Refusal::DoesNotFit { .. }) => Err(Refusal::DoesNotFit {
                fits: answer::size(capacity),
            }),
            Err(refusal) => Err(refusal),
            Ok(_) => {
                answer::expect(word, bytes.len());
                Ok(Self { bytes })
            }
        }
    }

    /// Files a message for a client under a number, and gives the formatted text: the text itself where it needs no
    /// change.
    ///
    /// # Errors
    /// [`Refusal::TextTooLong`] (1), [`Refusal::NotWellFormed`] (3), [`Refusal::BadClientOrNumber`] (13) and
    /// [`Refusal::DoesNotFit`] (14); the store is then as it was.
    pub fn file<'a>(
        &mut self,
        text: &'a [u8],
        policy: &Policy,
        client: u64,
        number: u64,
    ) -> Result<Cow<'a, [u8]>, Refusal> {
        with_format_room(text, policy, |out| {
            self.file_into(text, policy, client, number, out)
        })
    }

    /// Files a message as [`file`](Self::file) does, with the formatted text in the caller's buffer. Four times the
    /// text's length is always enough room. What is after the formatted text stays as it was.
    ///
    /// # Errors
    /// [`Refusal::TextTooLong`] (1), [`Refusal::NotWellFormed`] (3), [`Refusal::OutputTooShort`] (8),
    /// [`Refusal::BadClientOrNumber`] (13) and [`Refusal::DoesNotFit`] (14); the store and the buffer are then as they were.
    pub fn file_into(
        &mut self,
        text: &[u8],
        policy: &Policy,
        client: u64,
        number: u64,
        out: &mut [u8],
    ) -> Result<Formatted, Refusal> {
        let word = sys::store_file(
            &mut self.bytes,
            text,
            policy.as_bytes(),
            client,
            number,
            out,
        );
        let done = answer::read(word)?;
        Ok(done.map_or(Formatted::Unchanged, |len| Formatted::Changed { len }))
    }

    /// Releases the message that a client filed under a number, and gives how many bytes that gives back.
    ///
    /// # Errors
    /// [`Refusal::BadClientOrNumber`] (13); the store is then as it was.
    pub fn release(&mut self, client: u64, number: u64) -> Result<usize, Refusal> {
        answer::read_done(sys::store_release(&mut self.bytes, client, number))
    }

    /// How many bytes are charged to a client.
    ///
    /// # Errors
    /// [`Refusal::BadClientOrNumber`] (13) for a client above 15.
    pub fn used(&self, client: u64) -> Result<usize, Refusal> {
        answer::read_done(sys::store_used(&self.bytes, client))
    }
}

impl Debug for Store {
    fn fmt(&self, out: &mut Formatter<'_>) -> fmt::Result {
        let used: Vec<usize> = (0..).map_while(|client| self.used(client).ok()).collect();
        out.debug_struct("Store")
            .field("used", &used)
            .finish_non_exhaustive()
    }
}
