//! A method looked up by the index of members, where all members are made to share one mark. The probe checks the tables and
//! makes the index at each call, so that a look-up by itself is the difference between a name at the end of the chain and one
//! that no member has the mark of.

use crate::times::{self, Times};
use clumarief_compare::proved::{self, Tables};
use clumarief_compare::shared_marks::name;
use std::hint::black_box;

/// One class with `1 << bits` methods, each with a name of its own.
struct Shared {
    members: Vec<[u32; 15]>,
    pool: Vec<u8>,
}

impl Shared {
    fn new(bits: usize) -> Self {
        // the class's raw descriptor, its display descriptor, the members' descriptor and display name
        let mut pool = b"Lx;LA;()Vm".to_vec();
        let members = (0..1 << bits)
            .map(|number| {
                let (place, name) = (pool.len() as u32, name(number, bits));
                pool.extend(name.bytes());
                let mut row = [0; 15];
                row[..10].copy_from_slice(&[1, 0, place, name.len() as u32, 6, 3, 9, 1, 3, 3]);
                row
            })
            .collect();
        Shared { members, pool }
    }

    /// The best of all runs, in microseconds, and what was answered.
    fn time(&self, asked: &str, runs: u64) -> (f64, u64) {
        let tables = Tables {
            classes: &[[0, 3, 3, 3]],
            members: &self.members,
            pool: &self.pool,
            used: [1, self.members.len() as u32, self.pool.len() as u32],
        };
        let look = || proved::method_row(&tables, b"Lx;", black_box(asked.as_bytes()), b"()V");
        let timed: Vec<_> = (0..runs.max(1)).map(|_| times::time(look)).collect();
        let answer = timed[0].0;
        let best = Times::of(timed.into_iter().map(|(_, time)| time).collect()).best();
        (best.as_secs_f64() * 1e6, answer)
    }
}

pub fn run(runs: u64) {
    println!(
        "\nmicroseconds a call that checks the tables, makes the index of members and looks one up; all members share one mark\n\
         members     name of no mark     first of the chain asked last     the look-up"
    );
    for bits in [9, 11, 13, 15] {
        let shared = Shared::new(bits);
        let (without, unknown) = shared.time("other", runs);
        let (with, found) = shared.time(&name(0, bits), runs);
        assert_eq!((unknown, found), (1, 2), "the index answers otherwise");
        println!(
            "{:>7}{without:>20.1}{with:>34.1}{:>16.1}",
            1 << bits,
            with - without
        );
    }
}
