//! The same turns as `turns.rt.txt`, with std's `Mutex`.
use std::hint::black_box;
use std::sync::Mutex;
use std::thread;
use std::time::Instant;

const TURNS: u64 = 10_000_000;
const ROUNDS: u32 = 3;

struct Sum {
    made: u64,
    sum: u64,
}

fn take_turns(lock: &Mutex<Sum>, turns: u64) {
    for i in 0..turns {
        let mut value = lock.lock().unwrap();
        value.made += 1;
        value.sum = value.sum.wrapping_add(i);
        black_box(value.sum);
    }
}

fn main() {
    for _ in 0..ROUNDS {
        let lock = Mutex::new(Sum { made: 0, sum: 0 });
        for threads in [1, 2, 4] {
            let start = Instant::now();
            thread::scope(|scope| {
                for _ in 1..threads {
                    scope.spawn(|| take_turns(&lock, TURNS / threads));
                }
                take_turns(&lock, TURNS / threads);
            });
            println!("{threads} {}", start.elapsed().as_nanos());
        }
        assert!(lock.into_inner().unwrap().made == 3 * TURNS);
    }
}
