//! The generated sweeps reach what they should, and more than a few of each kind.
use compare::sweep::any;
use harness::generate::Gen;

const CASES: u64 = 5_000;

#[test]
fn sweeps() {
    let mut refused = [0; 17];
    let (mut entries, mut inner, mut no_hit, mut no_visit) = (0, 0, 0, 0);
    let (mut version, mut units, mut axis, mut shape) = (0, 0, 0, 0);
    for k in 0..CASES {
        let c = any(&mut Gen::new(1, "inputs", k));
        let (number, list, visits) = c.rust();
        refused[number as usize] += 1;
        version += (number == 1 && c.version != 1) as u64;
        units += (number == 1 && c.units != 0) as u64;
        axis += (number == 6 && c.axis > 5) as u64;
        shape += (number == 6 && c.tool.kind > 8) as u64;
        if number == 0 {
            entries += list.len();
            inner += list.iter().filter(|e| e.inner.is_some()).count();
            no_hit += (visits > 0 && list.is_empty()) as u64;
            no_visit += (visits == 0) as u64;
        }
    }
    println!("{refused:?}, entries {entries}, with an inner {inner}, no hit {no_hit}, no visit {no_visit}");
    println!("version {version}, units {units}, no axis {axis}, no shape {shape}");
    for number in [0, 1, 2, 3, 5, 6, 7, 8, 11, 12, 16] {
        assert!(refused[number] >= 10, "{number}: {refused:?}");
    }
    assert!([version, units, axis, shape].iter().all(|n| *n >= 5), "{version} {units} {axis} {shape}");
    assert!(entries > 1000 && 4 * inner > entries / 10 && inner < entries, "{entries} {inner}");
    assert!(no_hit >= 20 && no_visit >= 20, "{no_hit} {no_visit}");
}
