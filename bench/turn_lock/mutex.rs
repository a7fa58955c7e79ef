// The calls of the benchmark through Rust's own Mutex, for `run.sh`.
use std::sync::Mutex;
use std::thread;
use std::time::Instant;

// The number of calls of all threads together.
const TIMED_CALLS: u64 = 2_000_000;

#[derive(Clone, Copy)]
struct Bump;

struct Tally {
    count: u64,
}

impl Tally {
    #[inline(never)]
    fn turn(&mut self, _event: Bump) -> Result<u64, ()> {
        self.count = self.count.wrapping_add(1);
        Ok(self.count)
    }
}

fn main() {
    for threads in [1, 2, 4, 11] {
        let tally = Mutex::new(Tally { count: 0 });
        let start = Instant::now();
        thread::scope(|scope| {
            for _ in 0..threads {
                scope.spawn(|| {
                    for _ in 0..TIMED_CALLS / threads {
                        let _ = std::hint::black_box(tally.lock().unwrap().turn(Bump));
                    }
                });
            }
        });
        let time = start.elapsed().as_nanos();
        let count = tally.lock().unwrap().count;
        println!("{threads} {count} {time}");
    }
}
