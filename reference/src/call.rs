//! The nine calls and how a call is refused (docs/RULES.md, section 12; docs/REFUSALS.md).

/// A call with the numbers that its line gives, whether in range or not.
#[derive(Clone, PartialEq, Eq, Debug)]
pub enum Call {
    Tick { seat: u8, time: u32 },
    Enter { seat: u8 },
    Propose { seat: u8, parent: u16, places: Vec<u8> },
    Echo { seat: u8, block: u16 },
    Finish { seat: u8, block: u16 },
    Commit { seat: u8, block: u16 },
    Deliver { seat: u8, kind: u8, signer: u8, subject: u16 },
    Forge { seat: u8, round: u8, parent: u16, places: Vec<u8> },
    Seal { seat: u8, kind: u8, subject: u16 },
}

impl Call {
    pub fn seat(&self) -> u8 {
        match *self {
            Call::Tick { seat, .. }
            | Call::Enter { seat }
            | Call::Propose { seat, .. }
            | Call::Echo { seat, .. }
            | Call::Finish { seat, .. }
            | Call::Commit { seat, .. }
            | Call::Deliver { seat, .. }
            | Call::Forge { seat, .. }
            | Call::Seal { seat, .. } => seat,
        }
    }

    /// What a refusal of this call names, but for 20.
    pub fn subject(&self) -> u16 {
        match *self {
            Call::Tick { .. } | Call::Enter { .. } => 0,
            Call::Propose { parent, .. } | Call::Forge { parent, .. } => parent,
            Call::Echo { block, .. } | Call::Finish { block, .. } | Call::Commit { block, .. } => block,
            Call::Deliver { subject, .. } | Call::Seal { subject, .. } => subject,
        }
    }

    /// Whether the call is one for corrupt seats.
    pub fn is_for_corrupt(&self) -> bool {
        matches!(self, Call::Forge { .. } | Call::Seal { .. })
    }

    /// The bytes of its frame.
    pub fn frame(&self) -> Vec<u8> {
        let two = |number: u16| number.to_be_bytes();
        match self {
            Call::Tick { seat, time } => [&[0x10, *seat][..], &time.to_be_bytes()].concat(),
            Call::Enter { seat } => vec![0x11, *seat],
            Call::Propose { seat, parent, places } => [&[0x12, *seat][..], &two(*parent), places].concat(),
            Call::Echo { seat, block } => [&[0x13, *seat][..], &two(*block)].concat(),
            Call::Finish { seat, block } => [&[0x14, *seat][..], &two(*block)].concat(),
            Call::Commit { seat, block } => [&[0x15, *seat][..], &two(*block)].concat(),
            Call::Deliver { seat, kind, signer, subject } => [&[0x16, *seat, *kind, *signer][..], &two(*subject)].concat(),
            Call::Forge { seat, round, parent, places } => [&[0x17, *seat, *round][..], &two(*parent), places].concat(),
            Call::Seal { seat, kind, subject } => [&[0x18, *seat, *kind][..], &two(*subject)].concat(),
        }
    }
}

pub const LAYER_PAGE: u8 = 1;
pub const LAYER_PLAN: u8 = 2;
pub const LAYER_HALL: u8 = 3;
pub const LAYER_SEAT: u8 = 4;

#[derive(Clone, Copy, PartialEq, Eq, Debug)]
pub struct Refusal {
    pub number: u8,
    pub layer: u8,
    pub seat: u8,
    pub subject: u16,
}
