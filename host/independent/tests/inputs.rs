//! The tables that the run tests read are the ones the cases make.

use independent::cases;

#[test]
fn judges() {
    let input = include_bytes!("../../../crates/test_judges/stdin");
    assert!(input == cases::judges_input().as_slice());
    // As much as the run test has room for.
    assert!(input.len() < 327_680, "{}", input.len());
}

#[test]
fn cells() {
    assert!(include_bytes!("../../../crates/test_cells/stdin") == cases::cells_input().as_slice());
}

#[test]
fn kinds() {
    assert!(include_bytes!("../../../crates/test_kinds/stdin") == cases::kinds_input().as_slice());
}

#[test]
fn names() {
    assert!(include_bytes!("../../../crates/test_book/stdin") == cases::names_input().as_slice());
}

#[test]
fn fees() {
    assert!(include_bytes!("../../../crates/test_fee/stdin") == cases::fees_input().as_slice());
}

#[test]
fn weights() {
    let input = include_bytes!("../../../crates/test_weights/stdin");
    assert!(input == cases::weights_input().as_slice());
    // As much as the run test has room for.
    assert!(input.len() < 60_000, "{}", input.len());
}

#[test]
fn lines() {
    let input = include_bytes!("../../../crates/test_lines/stdin");
    assert!(input == cases::lines_input().as_slice());
    // As much as the run test has room for.
    assert!(input.len() <= 65_000, "{}", input.len());
}

#[test]
fn mends() {
    let input = include_bytes!("../../../crates/test_mends/stdin");
    assert!(input == cases::mends_input().as_slice());
    // As much as the run test has room for.
    assert!(input.len() < 320_000, "{}", input.len());
}

#[test]
fn tallies() {
    let input = include_bytes!("../../../crates/test_tallies/stdin");
    assert!(input == cases::tallies_input().as_slice());
    // As much as the run test has room for.
    assert!(input.len() < 320_000, "{}", input.len());
}
