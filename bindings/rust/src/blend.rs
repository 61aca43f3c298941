//! What a supplier files of a blend: Peng-Robinson coefficients of its components, interactions and fractions.

/// The coefficients of one component.
#[derive(Clone, Copy, Debug, PartialEq)]
pub struct Component {
    /// Critical temperature, K.
    pub critical_temperature: f64,
    /// Critical pressure, Pa.
    pub critical_pressure: f64,
    /// Acentric factor.
    pub acentric_factor: f64,
}

impl Component {
    /// A component of critical temperature in K, critical pressure in Pa and acentric factor. Nothing is tested here;
    /// numbers that the equation cannot use are [`Refusal::Coefficients`](crate::Refusal::Coefficients) (12) where a
    /// request is made of them.
    pub const fn new(critical_temperature: f64, critical_pressure: f64, acentric_factor: f64) -> Component {
        Component { critical_temperature, critical_pressure, acentric_factor }
    }
}

/// A blend of 1 to 8 components. Nothing is tested here; what does not fit is refused by
/// [`Request::new`](crate::Request::new).
#[derive(Clone, Debug, PartialEq)]
pub struct Blend {
    /// The N components.
    pub components: Vec<Component>,
    /// k_ij by rows, i below j: N(N−1)/2 numbers. For three components k_12, k_13, k_23.
    pub interactions: Vec<f64>,
    /// Mole fractions: N numbers that add up to 1 within 1e-9. Kinds 5 and 6 do not read them.
    pub fractions: Vec<f64>,
}

impl Blend {
    /// One component with fraction 1.
    pub fn pure(component: Component) -> Blend {
        Blend { components: vec![component], interactions: Vec::new(), fractions: vec![1.0] }
    }
}
