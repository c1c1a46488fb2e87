//! What a decision chooses: document 01, "Replacement and text".

use crate::Refusal;
use crate::names::by_name;

/// How a base is shown: what a decision chooses.
///
/// Which decision formatting makes for a base by default depends on the policy:
/// [`SingletonRule::default_decision`](crate::SingletonRule::default_decision) and
/// [`default_decisions`](crate::default_decisions).
///
/// ```
/// use tilghorz::{Presentation, Refusal};
///
/// assert_eq!("emoji".parse(), Ok(Presentation::Emoji));
/// assert_eq!(Presentation::Text.to_string(), "text");
///
/// // Decisions as bytes, as the C functions take them.
/// assert_eq!(Presentation::from_bytes(&[1, 0])?, [Presentation::Emoji, Presentation::Text]);
/// assert_eq!(Presentation::from_bytes(&[1, 2]), Err(Refusal::BadDecision { index: 1 }));
/// # Ok::<(), Refusal>(())
/// ```
#[derive(Debug, Clone, Copy, PartialEq, Eq, PartialOrd, Ord, Hash)]
#[repr(u8)]
pub enum Presentation {
    /// As text: FE0E, decision 0.
    Text = 0,
    /// As emoji: FE0F, decision 1.
    Emoji = 1,
}

impl Presentation {
    /// Both, in the order of their bytes.
    pub const ALL: [Self; 2] = [Self::Text, Self::Emoji];

    /// The byte of the decision, as it crosses.
    #[must_use]
    pub const fn decision(self) -> u8 {
        match self {
            Self::Text => 0,
            Self::Emoji => 1,
        }
    }

    /// Its name.
    #[must_use]
    pub const fn name(self) -> &'static str {
        match self {
            Self::Text => "text",
            Self::Emoji => "emoji",
        }
    }

    /// The decisions of their bytes.
    ///
    /// # Errors
    /// [`Refusal::BadDecision`] (6) for a byte above 1, as the library gives it.
    pub fn from_bytes(bytes: &[u8]) -> Result<Vec<Self>, Refusal> {
        let decision = |(index, byte): (usize, &u8)| {
            let found = Self::ALL.get(usize::from(*byte)).copied();
            found.ok_or(Refusal::BadDecision { index })
        };
        bytes.iter().enumerate().map(decision).collect()
    }
}

by_name!(Presentation, "a decision");

impl From<Presentation> for u8 {
    fn from(presentation: Presentation) -> Self {
        presentation.decision()
    }
}
