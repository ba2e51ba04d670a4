//! The refusals, their numbers and their order.

/// A refusal. The cases stand in the order of the table of refusals, so the derived order says
/// which of two stands higher: the smaller one.
#[derive(Clone, Copy, Debug, PartialEq, Eq, PartialOrd, Ord)]
pub enum Refusal {
    SheetSize,
    Head,
    Kind,
    Edge,
    Path,
    Fan,
    NoRoute,
    NoFan,
    MaskSite,
    ManyRogues,
    OtherPlan,
    NoSite,
    SoundSite,
    RogueSite,
    Over,
    Spoken,
    LaneFull,
    Unspoken,
    Undecided,
    Unheard,
}

impl Refusal {
    pub fn number(self) -> u32 {
        match self {
            Refusal::SheetSize => 1,
            Refusal::Head => 2,
            Refusal::Kind => 3,
            Refusal::Edge => 4,
            Refusal::Path => 5,
            Refusal::Fan => 6,
            Refusal::NoRoute => 7,
            Refusal::NoFan => 8,
            Refusal::MaskSite => 11,
            Refusal::ManyRogues => 12,
            Refusal::OtherPlan => 14,
            Refusal::NoSite => 21,
            Refusal::SoundSite => 22,
            Refusal::RogueSite => 23,
            Refusal::Over => 24,
            Refusal::Spoken => 26,
            Refusal::LaneFull => 25,
            Refusal::Unspoken => 27,
            Refusal::Undecided => 28,
            Refusal::Unheard => 29,
        }
    }
}

/// Of the refusals that apply, the one that stands highest in the table answers.
pub fn highest(cases: &[(Refusal, bool)]) -> Result<(), Refusal> {
    let applying = cases.iter().filter(|case| case.1).map(|case| case.0);
    match applying.min() {
        Some(refusal) => Err(refusal),
        None => Ok(()),
    }
}
