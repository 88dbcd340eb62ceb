//! Mistakes that can be planted in this program, so that a test sees the comparison and the promises find them.

#[derive(Clone, Copy, PartialEq, Eq, Debug)]
pub enum Misreading {
    /// A quorum of 2 × t + 1 in place of n − t.
    SmallQuorum,
    /// Delays are over one tick too early.
    DelayOneShort,
    /// A finalization share is sealed although another block is noted.
    FinalDespiteRival,
    /// The better block is searched from the highest rank down.
    BetterFromHighest,
    /// A proposal does not bring its parent's notarization along.
    ParentKept,
    /// A seat that enters a round seals no beacon share of the next.
    NoNextShare,
    /// A second block of a rank may be echoed again and again.
    EchoAgain,
    /// A block is valid whatever its payload.
    AnyPayload,
    /// A block that was broadcast cannot be delivered to anyone but its maker.
    BlockStays,
    /// The record lists one refusal too many.
    SixtyFiveRefusals,
}

impl Misreading {
    pub const ALL: [Misreading; 10] = [
        Misreading::SmallQuorum,
        Misreading::DelayOneShort,
        Misreading::FinalDespiteRival,
        Misreading::BetterFromHighest,
        Misreading::ParentKept,
        Misreading::NoNextShare,
        Misreading::EchoAgain,
        Misreading::AnyPayload,
        Misreading::BlockStays,
        Misreading::SixtyFiveRefusals,
    ];

    pub fn named(name: &str) -> Option<Misreading> {
        Misreading::ALL.into_iter().find(|misreading| misreading.name() == name)
    }

    pub fn name(self) -> &'static str {
        match self {
            Misreading::SmallQuorum => "small-quorum",
            Misreading::DelayOneShort => "delay-one-short",
            Misreading::FinalDespiteRival => "final-despite-rival",
            Misreading::BetterFromHighest => "better-from-highest",
            Misreading::ParentKept => "parent-kept",
            Misreading::NoNextShare => "no-next-share",
            Misreading::EchoAgain => "echo-again",
            Misreading::AnyPayload => "any-payload",
            Misreading::BlockStays => "block-stays",
            Misreading::SixtyFiveRefusals => "sixty-five-refusals",
        }
    }
}
