//! Sizes, kinds, spans, refusals, places in the record and the six functions are those of the C header.

use peng_robinson_board::*;
use std::collections::BTreeMap;

fn file(path: &str) -> String {
    let path = format!("{}/{path}", env!("CARGO_MANIFEST_DIR"));
    std::fs::read_to_string(&path).unwrap_or_else(|error| panic!("{path}: {error}"))
}

/// The header without its comments.
fn header() -> String {
    let text = file("../../include/peng_robinson_board.h");
    let mut code = String::new();
    let mut rest = text.as_str();
    while let Some((before, comment)) = rest.split_once("/*") {
        code += before;
        code.push(' ');
        rest = comment.split_once("*/").expect("a comment that ends").1;
    }
    code + rest
}

/// Every `#define NAME number` and every `NAME = number` of an enum, by names without `PR_`.
fn constants() -> BTreeMap<String, u64> {
    let code = header().replace("#define", " ").replace(['=', ',', '{', '}'], " ");
    let mut found = BTreeMap::new();
    let words: Vec<&str> = code.split_whitespace().collect();
    for pair in words.windows(2) {
        let number = pair[1].trim_matches(['(', ')']).trim_end_matches(['u', 'U', 'l', 'L']);
        if let (Some(name), Ok(number)) = (pair[0].strip_prefix("PR_"), number.parse()) {
            found.insert(name.to_string(), number);
        }
    }
    found
}

/// The constants whose names begin so, by the rest of the name.
fn constants_of(prefix: &str) -> BTreeMap<String, u64> {
    let all = constants().into_iter();
    all.filter_map(|(name, number)| Some((name.strip_prefix(prefix)?.to_string(), number))).collect()
}

/// `QueueFull` as `QUEUE_FULL`.
fn in_capitals(name: &str) -> String {
    let mut capitals = String::new();
    for (at, letter) in name.chars().enumerate() {
        if at > 0 && letter.is_uppercase() {
            capitals.push('_');
        }
        capitals.push(letter.to_ascii_uppercase());
    }
    capitals
}

#[test]
fn sizes() {
    let constants = constants();
    assert_eq!(constants["BOARD_BYTES"], BOARD_BYTES as u64);
    assert_eq!(constants["BLOCK_BYTES"], BLOCK_BYTES as u64);
    assert_eq!(constants["RECORD_BYTES"], RECORD_BYTES as u64);
    assert_eq!(constants["REQUEST_BYTES"], REQUEST_BYTES as u64);
    assert_eq!(constants["QUEUES"], QUEUES);
}

#[test]
fn kinds_and_spans() {
    let named = |of: fn(Kind) -> u64| -> BTreeMap<String, u64> {
        let kinds = Kind::ALL.iter();
        kinds.map(|kind| (in_capitals(&format!("{kind:?}")), of(*kind))).collect()
    };
    assert_eq!(named(Kind::number), constants_of("KIND_"));
    assert_eq!(named(Kind::span), constants_of("SPAN_"));
}

#[test]
fn refusals() {
    let refusals = Refusal::ALL.iter();
    let named: BTreeMap<_, _> =
        refusals.map(|refusal| (in_capitals(&format!("{refusal:?}")), refusal.number())).collect();
    assert_eq!(named, constants_of("REFUSED_"));
    assert!(Refusal::ALL.is_sorted_by_key(|refusal| refusal.number()));
}

#[test]
fn places_in_the_record() {
    let at = |name: &str| constants()[&format!("RECORD_{name}")] as usize;
    let mut bytes = [0; RECORD_BYTES];
    let mut put = |at: usize, word: u64| bytes[at..at + 8].copy_from_slice(&word.to_le_bytes());
    put(at("TICKET"), 0x0102_0304_0506_0708);
    put(at("STATUS"), 17);
    for (i, value) in [1.5f64, -2.5, 3.5].into_iter().enumerate() {
        put(at("VALUES") + 8 * i, value.to_bits());
    }
    put(at("EVALUATIONS"), 0x1112_1314_1516_1718);
    bytes[at("KIND")] = 6;
    bytes[at("QUEUE")] = 3;
    let record = Record::from_bytes(&bytes).unwrap();
    assert_eq!(record.ticket(), Ticket { queue: 3, number: 0x0102_0304_0506_0708 });
    assert_eq!(record.kind(), Ok(Kind::StabilitySpinodals));
    assert_eq!(record.public().len(), at("SEALED"));
    let expected = Sealed { status: 17, values: [1.5, -2.5, 3.5], evaluations: 0x1112_1314_1516_1718 };
    assert_eq!(record.sealed(), expected);
    assert_eq!(record.sealed().outcome(), Err(Refusal::SumOfFractions));
}

/// What stands in the brackets after a function's name where it is declared, one parameter each.
fn parameters<'a>(code: &'a str, before: &str, name: &str) -> Vec<&'a str> {
    let (_, rest) = code.split_once(&format!("{before}{name}(")).unwrap_or_else(|| panic!("no {name}"));
    let (list, _) = rest.split_once(')').expect("a bracket that ends");
    list.split(',').map(str::trim).filter(|parameter| !parameter.is_empty()).collect()
}

/// `const uint8_t *block` as `block: *const u8`.
fn in_rust(parameter: &str) -> String {
    let (kind, name) = parameter.rsplit_once([' ', '*']).expect("a type and a name");
    let pointer = match (parameter.contains('*'), kind.contains("const ")) {
        (false, _) => "",
        (true, true) => "*const ",
        (true, false) => "*mut ",
    };
    let kind = kind.replace("const ", "").replace('*', "");
    let number = match kind.trim() {
        "uint64_t" => "u64",
        "size_t" => "usize",
        "uint8_t" => "u8",
        "double" => "f64",
        other => panic!("{other} is not among the header's types"),
    };
    format!("{name}: {pointer}{number}")
}

#[test]
fn functions() {
    let (header, declarations) = (header(), file("src/declarations.rs"));
    for name in ["pr_submit", "pr_turn", "pr_look", "pr_quote", "pr_answer", "pr_write_block"] {
        let declared = parameters(&declarations, "fn ", name);
        let expected = parameters(&header, "uint64_t ", name).into_iter().map(in_rust);
        assert_eq!(declared, expected.collect::<Vec<_>>(), "{name}");
    }
}
