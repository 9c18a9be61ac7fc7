//! The generated inputs reach everything that the comparison counts.
use compare::modules;

/// How many cases each function is given that counts what they reach.
const CASES: [(&str, u64); 11] = [
    ("merge", 20_000),
    ("trace", 20_000),
    ("fill", 20_000),
    ("volume", 20_000),
    ("merge_ray", 5_000),
    ("sweep", 20_000),
    ("commit_changes", 15_000),
    ("commit_log", 15_000),
    ("runs", 15_000),
    ("log_runs", 4_000),
    ("long_logs", 10_000),
];

#[test]
fn everything() {
    for f in modules().into_iter().flat_map(|(_, functions)| functions) {
        let cases = CASES.iter().find(|(name, _)| *name == f.name).map_or(0, |(_, cases)| *cases);
        for k in f.edges..f.edges + cases {
            f.case(1, k);
        }
        assert!(f.reached().missing().is_empty(), "{}: never {:?}", f.name, f.reached().missing());
    }
}
