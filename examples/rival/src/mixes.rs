//! A winter mix and a catalogue mix of propane and butane, and the questions that are asked of either.
//! The blocks of the two differ in the fractions, and in one question in the component that is asked for.
use peng_robinson_board::units::pressure_from_si;
use peng_robinson_board::{Blend, Component, DensityInitialization, Phase, Refusal, Request};

/// 25 °C in K.
const TEMPERATURE: f64 = 298.15;

/// A pressure in bar as the reduced number of a request.
fn bar(pressure: f64) -> f64 {
    pressure_from_si(pressure * 1e5)
}

/// A mix of propane, component 0, and butane, component 1.
pub struct Mix {
    pub name: &'static str,
    pub blend: Blend,
}

impl Mix {
    fn new(name: &'static str, propane: f64) -> Mix {
        let components = vec![
            Component::new(369.83, 4.248e6, 0.152),
            Component::new(425.12, 3.796e6, 0.200),
        ];
        let blend = Blend {
            components,
            interactions: vec![0.003],
            fractions: vec![propane, 1.0 - propane],
        };
        Mix { name, blend }
    }

    /// Seven parts of propane in ten: more pressure in the cold.
    pub fn winter() -> Mix {
        Mix::new("winter", 0.7)
    }

    /// Four parts of propane in ten.
    pub fn catalogue() -> Mix {
        Mix::new("catalogue", 0.4)
    }

    /// The component with the larger fraction.
    fn main_component(&self) -> u64 {
        match self.blend.fractions[..] {
            [propane, butane] if butane > propane => 1,
            _ => 0,
        }
    }

    pub fn vapor_density(&self) -> Result<Request, Refusal> {
        Request::density(
            &self.blend,
            TEMPERATURE,
            bar(1.0),
            DensityInitialization::Vapor,
        )
    }

    pub fn liquid_density(&self) -> Result<Request, Refusal> {
        Request::density(
            &self.blend,
            TEMPERATURE,
            bar(10.0),
            DensityInitialization::Liquid,
        )
    }

    /// At 5 bar the winter mix is stable as vapour, the catalogue mix as liquid.
    pub fn stable_density(&self) -> Result<Request, Refusal> {
        Request::stable_density(&self.blend, TEMPERATURE, bar(5.0))
    }

    pub fn spinodal(&self, phase: Phase) -> Result<Request, Refusal> {
        Request::spinodal_branch(&self.blend, TEMPERATURE, phase)
    }

    pub fn critical_point(&self) -> Result<Request, Refusal> {
        Request::blend_critical_point(&self.blend, None, None)
    }

    /// Which component the main one is stands in the block, which is not public.
    pub fn critical_point_of_main_component(&self) -> Result<Request, Refusal> {
        Request::critical_point(&self.blend, self.main_component(), None, None)
    }

    /// Reads no fractions, so that both mixes ask the same.
    pub fn critical_point_of_propane(&self) -> Result<Request, Refusal> {
        Request::critical_point(&self.blend, 0, None, None)
    }

    /// The point of the critical line at 400 K: the same of both mixes, which say where its search begins.
    pub fn critical_line_at_temperature(&self) -> Result<Request, Refusal> {
        Request::critical_point_at_temperature(&self.blend, 400.0, None)
    }

    /// The point at 40 bar, from 400 K.
    pub fn critical_line_at_pressure(&self) -> Result<Request, Refusal> {
        Request::critical_point_at_pressure(&self.blend, bar(40.0), Some(400.0), None)
    }

    /// The questions by name, the same for every mix.
    pub fn questions(&self) -> Result<Vec<(&'static str, Request)>, Refusal> {
        Ok(vec![
            ("vapour density, 25 °C, 1 bar", self.vapor_density()?),
            ("liquid density, 25 °C, 10 bar", self.liquid_density()?),
            ("stable density, 25 °C, 5 bar", self.stable_density()?),
            ("vapour spinodal, 25 °C", self.spinodal(Phase::Vapor)?),
            ("liquid spinodal, 25 °C", self.spinodal(Phase::Liquid)?),
            ("critical point, the mix itself", self.critical_point()?),
            (
                "critical point, main component",
                self.critical_point_of_main_component()?,
            ),
            ("critical point, propane", self.critical_point_of_propane()?),
            ("critical line, 400 K", self.critical_line_at_temperature()?),
            ("critical line, 40 bar", self.critical_line_at_pressure()?),
        ])
    }
}
