//! The kinds of request: their numbers and spans.

use crate::Refusal;

/// What a request asks for. Each kind has a number, a span and the values that it hands out.
///
/// ```
/// use peng_robinson_board::{Kind, Refusal};
///
/// assert_eq!(Kind::try_from(5), Ok(Kind::CriticalPoint));
/// assert_eq!((Kind::CriticalPoint.number(), Kind::CriticalPoint.span()), (5, 150));
/// assert_eq!(Kind::try_from(0), Err(Refusal::Kind));
/// ```
#[derive(Clone, Copy, Debug, PartialEq, Eq, Hash, PartialOrd, Ord)]
#[non_exhaustive]
#[repr(u8)]
pub enum Kind {
    /// Density at a temperature and a pressure, searched from a vapour, a liquid or a given density: density. It may
    /// be that of another phase than the one the search begins in.
    Density = 1,
    /// Density of the phase that is stable at a temperature and a pressure: density.
    StableDensity,
    /// Spinodal at a temperature, searched from a given density: pressure, density, curvature (the second derivative
    /// of the pressure by density, K·Å³).
    PressureSpinodal,
    /// Spinodal of the vapour or liquid branch at a temperature: pressure, density.
    SpinodalBranch,
    /// Critical point of one component: temperature, density.
    CriticalPoint,
    /// Both limits of stability of one component at a temperature: vapour density, liquid density. Below about half
    /// of the critical temperature both may be the vapour's; [`SpinodalBranch`](Kind::SpinodalBranch) searches each.
    StabilitySpinodals,
    /// Critical point of a blend of two components: temperature, density.
    BlendCriticalPoint,
    /// Critical point of two components at a set temperature, its composition searched too: partial densities of the
    /// first and the second component.
    CriticalPointAtTemperature,
    /// Critical point of two components at a set pressure, its composition searched too: temperature, partial
    /// densities of the first and the second component.
    CriticalPointAtPressure,
}

impl Kind {
    /// Every kind, by ascending number.
    pub const ALL: &'static [Kind] = &[
        Kind::Density,
        Kind::StableDensity,
        Kind::PressureSpinodal,
        Kind::SpinodalBranch,
        Kind::CriticalPoint,
        Kind::StabilitySpinodals,
        Kind::BlendCriticalPoint,
        Kind::CriticalPointAtTemperature,
        Kind::CriticalPointAtPressure,
    ];

    /// The kind's number in requests and records.
    pub const fn number(self) -> u64 {
        self as u64
    }

    /// The turns of its own queue that a job of this kind takes, the one that takes it in included; it comes out with
    /// the last of them.
    ///
    /// No search of the kind makes more evaluations.
    pub const fn span(self) -> u64 {
        match self {
            Kind::Density => 3_101,
            Kind::StableDensity => 6_204,
            Kind::PressureSpinodal | Kind::SpinodalBranch => 30,
            Kind::CriticalPoint | Kind::BlendCriticalPoint => 150,
            Kind::CriticalPointAtTemperature | Kind::CriticalPointAtPressure => 200,
            Kind::StabilitySpinodals => 250,
        }
    }
}

/// The kind of a number; another number is [`Refusal::Kind`] (2).
impl TryFrom<u64> for Kind {
    type Error = Refusal;

    fn try_from(number: u64) -> Result<Kind, Refusal> {
        let found = Kind::ALL.iter().find(|kind| kind.number() == number);
        found.copied().ok_or(Refusal::Kind)
    }
}
