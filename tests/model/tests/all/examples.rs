//! Examples A to L of the paper and its printed run.

use crate::common::*;
use model::*;

#[test]
fn a_x_opens() {
    let b = Box::open(&X);
    let free = |start, end| Train {
        start,
        end,
        at: start,
        track: 1,
        standing: Standing::Free,
        last: None,
    };
    let mut train = [Train::EMPTY; 6];
    train[0] = free(0, 2);
    train[1] = free(2, 0);
    let expected = State {
        posts: 3,
        tracks: [1, 2, 1, 0, 0, 0, 0, 0],
        sidings: 0,
        trains: 2,
        train,
        possessions: [false; 7],
        given: 0,
        journal: 0,
    };
    assert_eq!(b.state, expected);
    assert!(b.journal.iter().all(|r| *r == OLD));
}

#[test]
fn b_one_track_each_has_no_way_through() {
    assert_eq!(refusal_of(&book(&[1, 1, 1], &[(0, 2), (2, 0)])), 20);
}

#[test]
fn c_wrong_length() {
    let mut x = X;
    x[1] = 0x0B;
    assert_eq!(refusal_of(&x), 14);
}

#[test]
fn d_posts() {
    for posts in [0, 1, 9, 255] {
        let mut x = X;
        x[3] = posts;
        assert_eq!(refusal_of(&x), 15);
    }
}

#[test]
fn e_tracks() {
    for (count, refusal) in [(0, 16), (1, 0), (4, 0), (5, 16), (255, 16)] {
        let mut x = X;
        x[4] = count;
        assert_eq!(refusal_of(&x), refusal);
    }
}

#[test]
fn f_trains() {
    for trains in [0, 7, 255] {
        let mut x = X;
        x[7] = trains;
        assert_eq!(refusal_of(&x), 17);
    }
}

#[test]
fn g_overfull() {
    let mut x = X;
    x[10] = 0;
    assert_eq!(refusal_of(&x), 19);
}

#[test]
fn h_declined_for_the_way_through() {
    let mut b = Box::open(&Y);
    assert_eq!(b.put(&frame(FA, 2, 2, 1)), Ok(vec![[AFE, 2, 2, 1]]));
    assert_eq!(b.state.train[2].standing, Standing::Asked(0));
    assert_eq!(b.state.journal, 2);
}

#[test]
fn i_granted() {
    let mut b = Box::open(&Y);
    assert_eq!(b.put(&frame(FA, 0, 0, 1)), Ok(vec![[FE, 0, 0, 1]]));
    assert_eq!(b.state.train[0].standing, Standing::Running(1));
    assert_eq!(b.journal[0], record(FA, 0, 0, 1));
    assert_eq!(b.journal[1], authority(0, 0, 1, 1));
    assert_eq!(b.journal[2], OLD);
}

#[test]
fn j_wrong_end() {
    for book in [&X[..], &Y[..]] {
        assert_eq!(Box::open(book).put(&[0, 5, 1, 2, 0, 0, 1]), Err(6));
    }
}

#[test]
fn k_fe_twice() {
    let mut b = Box::open(&X);
    assert_eq!(b.put(&frame(FA, 0, 0, 1)), Ok(vec![[FE, 0, 0, 1]]));
    assert_eq!(put_repeat(&mut b, &frame(FA, 0, 0, 1)), [[FE, 0, 0, 1]]);
    assert_eq!(b.state.journal, 2);
}

#[test]
fn l_no_authority() {
    assert_eq!(Box::open(&X).put(&frame(AM, 0, 0, 1)), Err(12));
}

/// The frames of the printed run, after book X.
fn run_input() -> Vec<u8> {
    let frames = [
        frame(FA, 0, 0, 1),
        frame(FA, 1, 2, 1),
        frame(AM, 0, 0, 1),
        frame(FA, 0, 1, 2),
        frame(AM, 1, 2, 1),
        frame(FA, 1, 1, 0),
        frame(AM, 0, 1, 2),
        frame(AM, 1, 1, 0),
    ];
    let mut input = X.to_vec();
    for f in frames {
        input.extend(f);
    }
    input
}

const PRINTED: &str = "0 FA 0 0 1 0
1 FE 0 0 1 1
2 FA 1 2 1 0
3 FE 1 2 1 2
4 AM 0 0 1 0
5 FA 0 1 2 0
6 AFE 0 1 2 0
7 AM 1 2 1 0
8 FE 0 1 2 1
9 FA 1 1 0 0
10 FE 1 1 0 1
11 AM 0 1 2 0
12 AM 1 1 0 0
end 13 0
";

#[test]
fn printed_run() {
    assert_eq!(program::run(&mut &run_input()[..]), PRINTED);
}

#[test]
fn printed_run_by_the_program() {
    use std::io::Write;
    use std::process::{Command, Stdio};
    let mut child = Command::new(env!("CARGO_BIN_EXE_model"))
        .stdin(Stdio::piped())
        .stdout(Stdio::piped())
        .spawn()
        .unwrap();
    child.stdin.take().unwrap().write_all(&run_input()).unwrap();
    let output = child.wait_with_output().unwrap();
    assert!(output.status.success());
    assert_eq!(String::from_utf8(output.stdout).unwrap(), PRINTED);
}
