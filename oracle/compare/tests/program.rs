//! The program itself, run as a process, on the fixed texts of the comparison and some generated ones.
use compare::program::{Text, answer, run, text, texts};
use harness::generate::Gen;
use std::{
    io::Write,
    process::{Command, Stdio},
};

const PROGRAM: &str = concat!(env!("CARGO_MANIFEST_DIR"), "/../../target/bin/merge_ray");

fn written(t: &Text) -> String {
    let mut child = Command::new(PROGRAM)
        .stdin(Stdio::piped())
        .stdout(Stdio::piped())
        .spawn()
        .expect("target/bin/merge_ray: run oracle/build first");
    // a text too long to be readable is not read to its end, so the pipe may close before all is written
    let _ = child.stdin.take().unwrap().write_all(&t.0);
    String::from_utf8(child.wait_with_output().unwrap().stdout).unwrap()
}

#[test]
fn process() {
    for t in texts().into_iter().chain((0..200).map(|k| text(&mut Gen::new(1, "process", k)))) {
        let slices = String::from_utf8(run(&t.0).0).unwrap();
        assert_eq!(written(&t), slices, "{t:?}");
    }
}

/// The generated texts reach every answer.
#[test]
fn inputs() {
    let mut seen = [0; 4];
    for k in 0..2000 {
        let a = answer(&text(&mut Gen::new(1, "inputs", k)).0);
        seen[["refused 18\n", "refused 11\n"].iter().position(|w| a == *w).unwrap_or(2 + a.ends_with("same\n") as usize)] += 1;
    }
    assert!(seen.iter().all(|n| *n >= 100), "18, 11, changed, same: {seen:?}");
}
