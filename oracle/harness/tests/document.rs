//! Document 01's examples, on the Rust.
use oracle::{
    dexel::{Axis, DexelStock, opened as rust, opened::sweep},
    tool::{CutterShape, opened as tool},
};
const NAN: f64 = f64::NAN;

#[test]
fn examples() {
    assert_eq!(rust::normalize(vec![[3., 4.], [1., 2.], [2., 3.]]), [[1., 4.]]);
    assert!(rust::normalize(vec![[1., 1.], [NAN, 2.], [2., 1.]]).is_empty());
    assert_eq!(rust::normalize(vec![[1., 2.], [3., 4.]]), [[1., 2.], [3., 4.]]);
    assert_eq!(rust::subtract(&[[0., 2.], [3., 5.]], &[[1., 4.]]), [[0., 1.], [4., 5.]]);
    assert_eq!(rust::subtract(&[[0., 1.]], &[[1., 2.]]), [[0., 1.]]);
    assert!(rust::subtract(&[[0., 10.]], &[[0., 10.]]).is_empty());
    assert_eq!(rust::intersect(&[[0., 2.], [3., 5.]], &[[1., 4.]]), [[1., 2.], [3., 4.]]);
    assert!(!rust::contains(&[[0., 2.], [3., 5.]], &[[1., 4.]]));
    assert!(rust::contains(&[[0., 2.], [3., 5.]], &[]));
    let spec = |r, i| rust::spec([0.; 3], [10.; 3], 3., r, i);
    let g = spec(48, 96).grid().unwrap();
    assert_eq!((g.cells, g.step_mm, g.total_rays()), ([4; 3], [2.5; 3], 48));
    let code = |s: oracle::dexel::DexelStockSpec| rust::grid_code(&s.grid().unwrap_err());
    assert_eq!(code(spec(47, 96)), 2);
    assert_eq!(code(spec(48, 95)), 3);
    let thin = |m: f64| rust::spec([0.; 3], [m, 1., 1.], 1., 100, 1000);
    assert!(thin(1e-6).grid().is_ok());
    assert_eq!(code(thin(1e-6f64.next_down())), 1);
    assert_eq!(sweep::disk_strip([0., 0.], 5., 3., 7.), Some([-4., 4.]));
    assert_eq!(sweep::disk_strip([0., 0.], 5., 5., 6.), Some([0., 0.]));
    assert_eq!(sweep::disk_strip([0., 0.], 5., 5.5, 6.), None);
    let ball = tool::prepared(&tool::Given {
        shape: CutterShape::Ball,
        diameter: 10.,
        cutting: 20.,
        overall: 30.,
        radius: 5.,
        tip_height: 5.,
        slope: 0.,
        shoulder: 20.,
        shank_diameter: 10.,
        neck_diameter: None,
    });
    assert_eq!(sweep::cut_radius(&ball, 2.), 4.);
    let st = DexelStock::new(spec(48, 96)).unwrap();
    let at = |x| sweep::rays(&st, Axis::PosZ, 2, [[x, x], [0., 0.], [0., 0.]], 9).unwrap()[0].0;
    assert_eq!((at(10.), at(7.5), at(7.5f64.next_down()), at(0.)), (3, 3, 2, 0));
    assert_eq!(sweep::world(&st, Axis::NegZ, 2, [1., 2.]), [-2., -1.]);
    // The program's example.
    let full = || rust::ray(vec![[0., 10.]], vec![[0., 10.]]);
    let one = rust::stock(rust::spec([0.; 3], [10.; 3], 10., 3, 6), 0, std::array::from_fn(|_| vec![full()]));
    assert_eq!(
        sweep::merge_one(&one, vec![[1., 4.]], vec![[2., 3.]]),
        Some((vec![[0., 2.], [3., 10.]], vec![[0., 1.], [4., 10.]]))
    );
}
