//! Makes fast calls of the greatest length, one core, all lines low, no limit and the
//! old vectors, on a compiled program and prints how many instructions they executed:
//! `calls sieve 2`.
//! `count` runs it under valgrind.

use compare::check::Engine;
use compare::engine::Archive;
use compare::image::{self, Image};
use compare::runs::SCHEDULE_MOST;
use std::env::args;

fn main() {
    let name = args().nth(1).expect("a program's name");
    let calls: usize = args().nth(2).and_then(|text| text.parse().ok()).expect("how many calls");
    let mut case = Image::load(&image::folder(), &name).case(image::BYTES, 1);
    case.set_schedule(vec![0; SCHEDULE_MOST]);
    let mut executed = 0;
    for _ in 0..calls {
        let answer = Archive.fast_run(&mut case.lent());
        assert_eq!(answer >> 60, 0, "refused");
        executed += answer & 0xfffff;
    }
    println!("{executed}");
}
