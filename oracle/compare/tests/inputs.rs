//! The generated inputs reach every refusal and every kind of result.
use compare::{
    merge::ray_and_room,
    spans::{list_and_room, normalize_refusal, two_list_refusal, two_lists_and_room},
    stock::{blank, fill_refusal, stock, volume_refusal},
    trace::query,
};
use harness::{generate::Gen, pairs};
use oracle::dexel::opened as rust;

const CASES: u64 = 20_000;

fn share(count: u64) -> u64 {
    count * 100 / CASES
}

#[test]
fn one_list() {
    let (mut refused, mut joined, mut dropped) = ([0; 13], 0, 0);
    for k in 0..CASES {
        let input = list_and_room(&mut Gen::new(1, "inputs", k));
        let number = normalize_refusal(&input);
        refused[number as usize] += 1;
        if number == 0 {
            let list = pairs(&input.0);
            let kept = list.iter().filter(|s| s[0] < s[1]).count();
            dropped += (kept < list.len()) as u64;
            joined += (rust::normalize(list).len() < kept) as u64;
        }
    }
    assert!(share(refused[0]) >= 60 && share(refused[11]) >= 3 && share(refused[12]) >= 10, "{refused:?}");
    assert!(share(joined) >= 20 && share(dropped) >= 20, "joined {joined}, dropped {dropped}");
}

#[test]
fn two_lists() {
    let (mut refused, mut shared, mut empty) = ([0; 13], 0, 0);
    for k in 0..CASES {
        let input = two_lists_and_room(&mut Gen::new(1, "inputs", k));
        let number = two_list_refusal(&input);
        refused[number as usize] += 1;
        if number == 0 {
            let (a, b, _) = &input;
            shared += a.iter().any(|x| b.contains(x)) as u64;
            empty += rust::intersect(&pairs(a), &pairs(b)).is_empty() as u64;
        }
    }
    assert!(share(refused[0]) >= 40 && share(refused[11]) >= 10 && share(refused[12]) >= 10, "{refused:?}");
    assert!(share(shared) >= 20 && share(empty) >= 5, "ends in common {shared}, empty {empty}");
}

#[test]
fn rays() {
    let (mut refused, mut moved) = ([0; 13], [[0; 2]; 2]);
    for k in 0..CASES {
        let (ray, room) = ray_and_room(&mut Gen::new(1, "inputs", k));
        let number = ray.refusal(room);
        refused[number as usize] += 1;
        if number == 0 {
            let [p, c] = ray.merged();
            moved[(p != pairs(&ray.possible)) as usize][(c != pairs(&ray.certain)) as usize] += 1;
        }
    }
    assert!(share(refused[0]) >= 40 && share(refused[11]) >= 10 && share(refused[12]) >= 10, "{refused:?}");
    assert!(moved.as_flattened().iter().all(|n| share(*n) >= 2), "possible and certain moved {moved:?}");
}

/// Camlib's merges and the request's own words give one reason.
#[test]
fn queries() {
    let (mut refused, mut traced) = ([0; 20], [0; 6]);
    for k in 0..CASES {
        let q = query(&mut Gen::new(1, "inputs", k));
        let number = q.refusal();
        refused[number as usize] += 1;
        if number == 0 {
            assert_eq!(q.traced(), q.by_words(), "{q:?}");
            traced[q.traced().reason as usize] += 1;
        }
    }
    assert!(share(refused[0]) >= 40 && share(refused[11]) >= 10 && share(refused[19]) >= 2, "{refused:?}");
    assert!((1..=5).all(|reason| share(traced[reason]) >= 3), "{traced:?}");
}

#[test]
fn blanks() {
    let mut refused = [0; 13];
    for k in 0..CASES {
        refused[fill_refusal(&blank(&mut Gen::new(1, "inputs", k))) as usize] += 1;
    }
    assert!(share(refused[0]) >= 40 && share(refused[12]) >= 10, "{refused:?}");
    assert!((1..=3).all(|number| refused[number] >= 20), "{refused:?}");
}

#[test]
fn stocks() {
    let mut refused = [0; 13];
    for k in 0..CASES {
        refused[volume_refusal(&stock(&mut Gen::new(1, "inputs", k))) as usize] += 1;
    }
    assert!(share(refused[0]) >= 30 && share(refused[11]) >= 10 && share(refused[12]) >= 5, "{refused:?}");
    assert!([1, 2, 3].iter().all(|number| refused[*number] >= 20), "{refused:?}");
}
