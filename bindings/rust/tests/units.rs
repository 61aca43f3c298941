//! Reduced numbers in SI and back.

use peng_robinson_board::units::*;

/// The ideal gas has p = ρT in reduced numbers and p = ρRT in SI, with R = N_A·k_B.
#[test]
fn the_gas_constant_is_that_of_the_si() {
    for (density, temperature) in [(1e-6, 100.0), (6.7e-3, 300.0), (0.01, 900.0)] {
        let pressure = pressure_to_si(density * temperature);
        let expected = density_to_si(density) * 8.31446261815324 * temperature;
        assert!((pressure / expected - 1.0).abs() < 1e-14, "{pressure} {expected}");
    }
}

#[test]
fn there_and_back() {
    for number in [-3.0, -0.0, 0.0, 1e-300, 0.05, 8.6e-3, 1e5, 1e200] {
        for back in [density_from_si(density_to_si(number)), pressure_from_si(pressure_to_si(number))] {
            assert!((back - number).abs() <= 4e-16 * number.abs(), "{number} {back}");
        }
    }
    assert_eq!(pressure_from_si(101_325.0), 101_325.0 / 13_806_490.0);
    assert!((density_from_si(1.0) - 6.02214076e-7).abs() < 1e-21);
    for odd in [f64::NAN, f64::INFINITY] {
        let converted = [density_to_si, density_from_si, pressure_to_si, pressure_from_si].map(|of| of(odd));
        assert!(converted.iter().all(|number| number.is_nan() == odd.is_nan() && !number.is_finite()));
    }
}

/// The same SI number makes the same block in every binding: one factor, divided by or multiplied with. Worked out in
/// exact fractions and rounded once; the Python package's tests have the same list.
#[test]
fn bits_of_both_bindings() {
    let densities = [
        (1.0, 0x3EA434FAC208AAF2, 0x4139567B11324E23),
        (7.0, 0x3ED1AE5B69C79594, 0x41662BABAF0C045F),
        (1660.539, 0x3F50624DC7D308DF, 0x41E48B4DC7421AF8),
        (11096.15062, 0x3F7B5EDAFF8CFE10, 0x42112900DCBF056E),
        (0.1, 0x3E702A6234D3BBF5, 0x4104452F40F50B50),
        (12345.678, 0x3F7E73E41BF44DB5, 0x421317B209D6FEA6),
    ];
    for (number, from_si, to_si) in densities {
        assert_eq!((density_from_si(number).to_bits(), density_to_si(number).to_bits()), (from_si, to_si));
    }
    let pressures = [
        (1.0, 0x3E737154D92BC1FC, 0x416A557340000000),
        (101325.0, 0x3F7E0F6FAC086C5B, 0x42745B77A0852000),
        (500000.0, 0x3FA28AC0CEEC3F0C, 0x42991D25DD350000),
        (0.1, 0x3E3F1BBAF512CFFB, 0x4135112900000000),
        (7.0, 0x3EA1032A3E0649BD, 0x41970AC4D8000000),
    ];
    for (number, from_si, to_si) in pressures {
        assert_eq!((pressure_from_si(number).to_bits(), pressure_to_si(number).to_bits()), (from_si, to_si));
    }
}
