//! Numbers by chance, for names that no other has and for pauses.

use std::hash::{BuildHasher, RandomState};
use std::process;
use std::sync::atomic::{AtomicU64, Ordering};
use std::thread;
use std::time::Duration;

/// The name of a transaction in a store, which no other has.
pub type Mark = [u8; 16];

/// How many numbers were drawn.
static DRAWN: AtomicU64 = AtomicU64::new(0);

/// A number by chance, in the process of this number. The system gives each thread keys by chance, by
/// which what no other call hashes is hashed.
fn number_in(process: u32) -> u64 {
    let drawn = DRAWN.fetch_add(1, Ordering::Relaxed);
    RandomState::new().hash_one((process, drawn))
}

/// A number by chance.
pub(super) fn number() -> u64 {
    number_in(process::id())
}

/// A name that no other transaction has.
pub(super) fn mark() -> Mark {
    let process = process::id(); // asked for once, since it is a call of the system
    let [high, low] = [(); 2].map(|()| u128::from(number_in(process)));
    ((high << 64) | low).to_be_bytes()
}

/// Sleeps for up to so long, so that those who met do not meet again.
pub(super) fn pause(most: Duration) {
    thread::sleep(most.mul_f64(number() as f64 / u64::MAX as f64));
}

#[cfg(test)]
mod tests {
    use super::*;
    use std::collections::BTreeSet;

    #[test]
    fn marks_differ() {
        let draw = || (0..1000).map(|_| mark()).collect::<Vec<_>>();
        let drawn = thread::scope(|scope| {
            let threads = [(); 4].map(|()| scope.spawn(draw));
            threads.map(|it| it.join().unwrap()).concat()
        });
        assert_eq!(drawn.iter().collect::<BTreeSet<_>>().len(), 4000);
        let bits = drawn.iter().flatten().map(|byte| byte.count_ones());
        let share = f64::from(bits.sum::<u32>()) / (4000.0 * 128.0);
        assert!((0.49..0.51).contains(&share), "{share}");
    }
}
