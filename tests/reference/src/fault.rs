//! Mistakes that can be put into the protocol, to see that the checker finds them.
//!
//! The first five are those of paper 01, 'How a false end still gets through'; the others are wrong thresholds.

/// A mistake in the protocol.
#[derive(Clone, Copy, Debug, PartialEq, Eq)]
pub enum Fault {
    /// One variable for read number and write counter: an old INFO fits a new read.
    OneVariable,
    /// Late acknowledgements counted while a write still reads.
    LateAcknowledgements,
    /// FWD noted as a timestamp, where none is noted yet.
    ForwardNoted,
    /// INFO taken after the read was shown, so it is shown twice.
    InfoAfterShown,
    /// The newest pair leaves a full set, instead of the lowest.
    NewestDropped,
    /// A pair counts at or above 2f noted timestamps, not 2f + 1.
    TwoFNoted,
    /// A pair counts in f sets, not f + 1.
    FSets,
    /// A write ends with n − f − 1 acknowledgements.
    FewAcknowledgements,
}

impl Fault {
    /// All of them.
    pub const ALL: [Fault; 8] = [
        Fault::OneVariable,
        Fault::LateAcknowledgements,
        Fault::ForwardNoted,
        Fault::InfoAfterShown,
        Fault::NewestDropped,
        Fault::TwoFNoted,
        Fault::FSets,
        Fault::FewAcknowledgements,
    ];

    /// The fault's name on the command line.
    pub fn name(self) -> &'static str {
        match self {
            Fault::OneVariable => "one-variable",
            Fault::LateAcknowledgements => "late-acknowledgements",
            Fault::ForwardNoted => "forward-noted",
            Fault::InfoAfterShown => "info-after-shown",
            Fault::NewestDropped => "newest-dropped",
            Fault::TwoFNoted => "two-f-noted",
            Fault::FSets => "f-sets",
            Fault::FewAcknowledgements => "few-acknowledgements",
        }
    }

    /// The fault of that name.
    pub fn named(name: &str) -> Option<Fault> {
        Fault::ALL.into_iter().find(|fault| fault.name() == name)
    }
}
