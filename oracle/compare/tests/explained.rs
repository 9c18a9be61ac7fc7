//! Each difference that the comparison accepts is a row of docs/DIFFERENCES.md.
use compare::explained::Explained;

#[test]
fn rows() {
    let text = include_str!("../../../docs/DIFFERENCES.md");
    for e in Explained::ALL {
        let start = format!("| {} |", e.number());
        let row = text.lines().find(|l| l.starts_with(&start)).unwrap_or_else(|| panic!("no row {}", e.number()));
        assert!(row.contains(e.word()), "row {} does not speak of {}", e.number(), e.word());
    }
}
