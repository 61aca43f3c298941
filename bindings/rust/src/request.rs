//! A request: kind, number of components and block, made by the proved writer or taken from bytes.

use crate::refusal::accepted;
use crate::{declarations, Blend, Kind, Refusal, BLOCK_BYTES, REQUEST_BYTES};
use std::fmt;

/// What is asked of a blend, as it stands in the block. Numbers that the kind does not use may be anything.
#[derive(Clone, Copy, Debug, Default, PartialEq)]
pub struct Conditions {
    /// Kind 1: 0 vapour, 1 liquid, 2 start. Kind 4: 0 vapour, 1 liquid. Kinds 5 and 6: the component, from 0.
    /// Kinds 2, 3 and 7 to 9 do not use it.
    pub choice: u64,
    /// Temperature, K. Kinds 5, 7 and 9: +0 where none is given.
    pub temperature: f64,
    /// Pressure, K/Å³. Kinds 1, 2 and 9.
    pub pressure: f64,
    /// Starting density, 1/Å³. Kind 1 with choice 2, kind 3, and kinds 5 and 7 to 9: there +0 where none is given.
    pub start: f64,
}

/// A branch of the spinodal.
#[derive(Clone, Copy, Debug, PartialEq, Eq, Hash)]
pub enum Phase {
    /// The branch of the vapour.
    Vapor,
    /// The branch of the liquid.
    Liquid,
}

/// Where a density search begins.
#[derive(Clone, Copy, Debug, PartialEq)]
pub enum DensityInitialization {
    /// The density of the ideal gas, pressure over temperature.
    Vapor,
    /// The maximum density.
    Liquid,
    /// This density, 1/Å³.
    InitialDensity(f64),
}

/// A request: kind, number of components and block of 640 bytes.
///
/// Temperatures are in K, pressures in K/Å³ and densities in 1/Å³ ([`units`](crate::units) has them from SI).
/// The block belongs to its supplier: `Debug` shows kind and number of components only.
#[derive(Clone, PartialEq, Eq)]
pub struct Request {
    kind: u8,
    components: u8,
    block: [u8; BLOCK_BYTES],
}

impl Request {
    /// The request of a kind for a blend, by the proved writer. Every number is written, whether the kind reads it
    /// or not.
    ///
    /// Refused by the first of these, in this order:
    /// - [`Refusal::Components`] (3): the blend has none or more than 8, or in kinds 7 to 9 not 2;
    /// - [`Pairs`](Refusal::Pairs) (11): interactions or fractions of a length that does not fit the components;
    /// - [`Coefficients`](Refusal::Coefficients) (12), in any component, used or not;
    /// - [`Interactions`](Refusal::Interactions) (13);
    /// - in all kinds but 5 and 6 [`Fractions`](Refusal::Fractions) (14) and
    ///   [`SumOfFractions`](Refusal::SumOfFractions) (17);
    /// - [`Conditions`](Refusal::Conditions) (15), of those that the kind uses;
    /// - [`Choice`](Refusal::Choice) (16).
    ///
    /// A request that is made so is never refused by 11 to 17 afterwards.
    ///
    /// ```
    /// use peng_robinson_board::{Blend, Component, Conditions, Kind, Refusal, Request};
    ///
    /// let propane = Blend::pure(Component::new(369.83, 4.248e6, 0.1523));
    /// let conditions = Conditions { temperature: 300.0, start: 0.001, ..Conditions::default() };
    /// let request = Request::new(Kind::PressureSpinodal, &propane, conditions)?;
    /// assert_eq!(request, Request::pressure_spinodal(&propane, 300.0, 0.001)?);
    ///
    /// let conditions = Conditions { temperature: f64::NAN, ..conditions };
    /// assert_eq!(Request::new(Kind::PressureSpinodal, &propane, conditions), Err(Refusal::Conditions));
    /// # Ok::<(), Refusal>(())
    /// ```
    pub fn new(kind: Kind, blend: &Blend, conditions: Conditions) -> Result<Request, Refusal> {
        let components = blend.components.iter();
        let coefficients: Vec<f64> = components
            .flat_map(|c| [c.critical_temperature, c.critical_pressure, c.acentric_factor])
            .collect();
        let n = blend.components.len() as u64;
        let mut block = [0; BLOCK_BYTES];
        accepted(declarations::write_block(
            kind.number(),
            n,
            &coefficients,
            &blend.interactions,
            &blend.fractions,
            conditions,
            &mut block,
        ))?;
        // 1 to 8, since the writer accepted it
        let components = u8::try_from(n).map_err(|_| Refusal::Components)?;
        Ok(Request { kind: kind as u8, components, block })
    }

    /// Kind 1: the density at a temperature and a pressure.
    ///
    /// Refused as [`new`](Request::new) says. An initial density of 0 or below is not, and ends the job with
    /// [`Refusal::StartingDensity`] (21).
    pub fn density(
        blend: &Blend,
        temperature: f64,
        pressure: f64,
        initialization: DensityInitialization,
    ) -> Result<Request, Refusal> {
        let (choice, start) = match initialization {
            DensityInitialization::Vapor => (0, 0.0),
            DensityInitialization::Liquid => (1, 0.0),
            DensityInitialization::InitialDensity(density) => (2, density),
        };
        Request::new(Kind::Density, blend, Conditions { choice, temperature, pressure, start })
    }

    /// Kind 2: the density of the stable phase at a temperature and a pressure.
    ///
    /// Refused as [`new`](Request::new) says.
    pub fn stable_density(blend: &Blend, temperature: f64, pressure: f64) -> Result<Request, Refusal> {
        let conditions = Conditions { temperature, pressure, ..Conditions::default() };
        Request::new(Kind::StableDensity, blend, conditions)
    }

    /// Kind 3: the spinodal at a temperature, searched from a density.
    ///
    /// Refused as [`new`](Request::new) says. A start of 0 or below is not, and ends the job with
    /// [`Refusal::StartingDensity`] (21).
    pub fn pressure_spinodal(blend: &Blend, temperature: f64, start: f64) -> Result<Request, Refusal> {
        let conditions = Conditions { temperature, start, ..Conditions::default() };
        Request::new(Kind::PressureSpinodal, blend, conditions)
    }

    /// Kind 4: the spinodal of a branch at a temperature.
    ///
    /// Refused as [`new`](Request::new) says.
    pub fn spinodal_branch(blend: &Blend, temperature: f64, phase: Phase) -> Result<Request, Refusal> {
        let choice = match phase {
            Phase::Vapor => 0,
            Phase::Liquid => 1,
        };
        let conditions = Conditions { choice, temperature, ..Conditions::default() };
        Request::new(Kind::SpinodalBranch, blend, conditions)
    }

    /// Kind 5: the critical point of one component, counted from 0, searched from a temperature and a density where
    /// they are given. `Some(0.0)` is the same as `None`.
    ///
    /// Refused as [`new`](Request::new) says; a component that the blend does not have is
    /// [`Refusal::Choice`] (16).
    pub fn critical_point(
        blend: &Blend,
        component: u64,
        temperature: Option<f64>,
        start: Option<f64>,
    ) -> Result<Request, Refusal> {
        let (temperature, start) = (temperature.unwrap_or(0.0), start.unwrap_or(0.0));
        let conditions = Conditions { choice: component, temperature, start, ..Conditions::default() };
        Request::new(Kind::CriticalPoint, blend, conditions)
    }

    /// Kind 6: both limits of stability of one component, counted from 0, at a temperature.
    ///
    /// Refused as [`new`](Request::new) says; a component that the blend does not have is
    /// [`Refusal::Choice`] (16).
    pub fn stability_spinodals(blend: &Blend, component: u64, temperature: f64) -> Result<Request, Refusal> {
        let conditions = Conditions { choice: component, temperature, ..Conditions::default() };
        Request::new(Kind::StabilitySpinodals, blend, conditions)
    }

    /// Kind 7: the critical point of a blend of two components, searched from a temperature and a density where they
    /// are given. `Some(0.0)` is the same as `None`. A blend may have several critical points or none; which one is
    /// found hangs on where the search begins.
    ///
    /// Refused as [`new`](Request::new) says. A fraction of 0 is not, and ends the job with
    /// [`Refusal::NotConverged`] (22), or with [`NotFinite`](Refusal::NotFinite) (27) where a temperature is given;
    /// [`critical_point`](Request::critical_point) has the component alone.
    ///
    /// ```
    /// use peng_robinson_board::{answer, Blend, Component, Refusal, Request};
    ///
    /// let (propane, butane) = (Component::new(369.83, 4.248e6, 0.1523), Component::new(425.12, 3.796e6, 0.2002));
    /// let blend = Blend { components: vec![propane, butane], interactions: vec![0.003], fractions: vec![0.6, 0.4] };
    /// let request = Request::blend_critical_point(&blend, None, None)?;
    /// let [temperature, density, _] = answer(&request)?.outcome()?;
    /// assert_eq!(temperature.to_bits(), 0x4078BA68707F3DA0); // 395.65 K
    /// assert_eq!(density.to_bits(), 0x3F643FA92CC972CF); // 0.00247 molecules per cubic angstrom
    ///
    /// // between those of its components
    /// let alone = |component| answer(&Request::critical_point(&blend, component, None, None)?)?.outcome();
    /// let ([lower, ..], [upper, ..]) = (alone(0)?, alone(1)?);
    /// assert!(lower < temperature && temperature < upper);
    ///
    /// // of two components and no others
    /// assert_eq!(Request::blend_critical_point(&Blend::pure(propane), None, None), Err(Refusal::Components));
    /// # Ok::<(), Refusal>(())
    /// ```
    pub fn blend_critical_point(
        blend: &Blend,
        temperature: Option<f64>,
        start: Option<f64>,
    ) -> Result<Request, Refusal> {
        let (temperature, start) = (temperature.unwrap_or(0.0), start.unwrap_or(0.0));
        let conditions = Conditions { temperature, start, ..Conditions::default() };
        Request::new(Kind::BlendCriticalPoint, blend, conditions)
    }

    /// Kind 8: the critical point of two components at a set temperature. Its composition is searched too: the search
    /// begins at the blend's fractions and at a density where one is given. `Some(0.0)` is the same as `None`, 0.3 of
    /// the maximum density. There may be several such points or none, and not every one is stable; which one is found
    /// hangs on where the search begins.
    ///
    /// Refused as [`new`](Request::new) says. A fraction of 0 is not, and ends the job with
    /// [`Refusal::NotFinite`] (27).
    ///
    /// ```
    /// use peng_robinson_board::{answer, BinaryCriticalPoint, Blend, Component, Refusal, Request};
    ///
    /// let (propane, butane) = (Component::new(369.83, 4.248e6, 0.1523), Component::new(425.12, 3.796e6, 0.2002));
    /// let blend = Blend { components: vec![propane, butane], interactions: vec![0.003], fractions: vec![0.5, 0.5] };
    /// let request = Request::critical_point_at_temperature(&blend, 400.0, None)?;
    /// let point = BinaryCriticalPoint::at_temperature(400.0, answer(&request)?.outcome()?);
    /// assert_eq!(point.partial_densities.map(f64::to_bits), [0x3F54BFE6B8B66F42, 0x3F52F11B29E6C7C2]);
    /// let [propane_fraction, _] = point.fractions();
    /// assert!((propane_fraction - 0.5228).abs() < 1e-4);
    ///
    /// // the critical point of a blend of this composition (kind 7) is the same
    /// let there = Blend { fractions: point.fractions().to_vec(), ..blend };
    /// let [temperature, density, _] = answer(&Request::blend_critical_point(&there, None, None)?)?.outcome()?;
    /// assert!((temperature - 400.0).abs() < 1e-6 && (density / point.density() - 1.0).abs() < 1e-9);
    ///
    /// // of two components and no others
    /// let alone = Request::critical_point_at_temperature(&Blend::pure(propane), 400.0, None);
    /// assert_eq!(alone, Err(Refusal::Components));
    /// # Ok::<(), Refusal>(())
    /// ```
    pub fn critical_point_at_temperature(
        blend: &Blend,
        temperature: f64,
        start: Option<f64>,
    ) -> Result<Request, Refusal> {
        let conditions = Conditions { temperature, start: start.unwrap_or(0.0), ..Conditions::default() };
        Request::new(Kind::CriticalPointAtTemperature, blend, conditions)
    }

    /// Kind 9: the critical point of two components at a set pressure, searched as
    /// [`critical_point_at_temperature`](Request::critical_point_at_temperature) is, and from a temperature where one is
    /// given. `Some(0.0)` is the same as `None`, 300 K; a temperature near the line is worth giving.
    ///
    /// Refused as [`new`](Request::new) says. A fraction of 0 is not, and ends the job with
    /// [`Refusal::NotFinite`] (27).
    ///
    /// ```
    /// use peng_robinson_board::{answer, units, BinaryCriticalPoint, Blend, Component, Refusal, Request};
    ///
    /// let (propane, butane) = (Component::new(369.83, 4.248e6, 0.1523), Component::new(425.12, 3.796e6, 0.2002));
    /// let blend = Blend { components: vec![propane, butane], interactions: vec![0.003], fractions: vec![0.5, 0.5] };
    /// let pressure = units::pressure_from_si(40e5);
    /// let request = Request::critical_point_at_pressure(&blend, pressure, Some(400.0), None)?;
    /// let point = BinaryCriticalPoint::at_pressure(pressure, answer(&request)?.outcome()?);
    /// assert_eq!(point.temperature.to_bits(), 0x4079FEA3DFC59B36); // 415.92 K
    /// assert_eq!(point.pressure, Some(pressure));
    ///
    /// // the point of the line at this temperature (kind 8) is the same
    /// let request = Request::critical_point_at_temperature(&blend, point.temperature, None)?;
    /// let there = BinaryCriticalPoint::at_temperature(point.temperature, answer(&request)?.outcome()?);
    /// assert!((there.density() / point.density() - 1.0).abs() < 1e-9);
    /// # Ok::<(), Refusal>(())
    /// ```
    pub fn critical_point_at_pressure(
        blend: &Blend,
        pressure: f64,
        temperature: Option<f64>,
        start: Option<f64>,
    ) -> Result<Request, Refusal> {
        let (temperature, start) = (temperature.unwrap_or(0.0), start.unwrap_or(0.0));
        let conditions = Conditions { temperature, pressure, start, ..Conditions::default() };
        Request::new(Kind::CriticalPointAtPressure, blend, conditions)
    }

    /// The request of 642 bytes: kind, number of components, block.
    ///
    /// Another length is [`Refusal::BlockLength`] (8). Nothing else is tested: kind and number of components are
    /// where the request is submitted or answered, and what is wrong with the block becomes the job's status.
    pub fn from_bytes(bytes: &[u8]) -> Result<Request, Refusal> {
        let [kind, components, block @ ..] = bytes else {
            return Err(Refusal::BlockLength);
        };
        let block = block.try_into().map_err(|_| Refusal::BlockLength)?;
        Ok(Request { kind: *kind, components: *components, block })
    }

    /// The 642 bytes: kind, number of components, block.
    pub fn to_bytes(&self) -> [u8; REQUEST_BYTES] {
        let mut bytes = [0; REQUEST_BYTES];
        let [kind, components, block @ ..] = &mut bytes;
        *kind = self.kind;
        *components = self.components;
        *block = self.block;
        bytes
    }

    /// The kind's number. It may be out of range in a request that was taken from bytes.
    pub fn kind(&self) -> u64 {
        self.kind.into()
    }

    /// The number of components. It may be out of range in a request that was taken from bytes.
    pub fn components(&self) -> u64 {
        self.components.into()
    }

    /// The block.
    pub fn block(&self) -> &[u8; BLOCK_BYTES] {
        &self.block
    }
}

impl fmt::Debug for Request {
    fn fmt(&self, f: &mut fmt::Formatter<'_>) -> fmt::Result {
        let mut shown = f.debug_struct("Request");
        shown.field("kind", &self.kind).field("components", &self.components).finish_non_exhaustive()
    }
}
