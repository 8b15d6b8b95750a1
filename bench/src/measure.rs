//! Time for each call: rounds of many calls, the programs by turns, and of each the median round.

use std::cell::RefCell;
use std::rc::Rc;

/// A buffer that the programs, which run by turns, write into alike. What they read is one buffer too: how fast a copy is hangs
/// on where it begins and ends. It begins with a page, or it would lie astride two in one build and not in another.
pub type Shared<T> = Rc<RefCell<&'static mut [T]>>;

const PAGE: usize = 4_096;

pub fn shared<T: Copy + Default>(buffer: Vec<T>) -> Shared<T> {
    let each = std::mem::size_of::<T>();
    let mut room = Vec::with_capacity(buffer.len() + PAGE / each);
    let before = room.as_ptr() as usize % PAGE;
    let skipped = (PAGE - before) % PAGE / each;
    room.resize(skipped, T::default());
    room.extend(buffer);
    Rc::new(RefCell::new(&mut room.leak()[skipped..]))
}

/// So many calls.
pub type Calls = Box<dyn FnMut(usize)>;

pub struct Case {
    pub ours: Calls,
    pub plain: Calls,
    /// The copy that the call cannot do without, alone.
    pub bare: Option<Calls>,
}

pub struct Times {
    pub ours: f64,
    pub plain: f64,
    pub bare: Option<f64>,
}

const ROUNDS: usize = 101;
const ROUND_NS: f64 = 600_000.0;

/// A value that the compiler cannot see through: `std::hint::black_box`, for compilers that have none yet.
pub fn opaque<T>(value: T) -> T {
    unsafe {
        let seen = std::ptr::read_volatile(&value);
        std::mem::forget(value);
        seen
    }
}

extern "C" {
    fn clock_gettime(clock: i32, time: *mut [i64; 2]) -> i32;
}

/// The time that this thread has had a processor, in nanoseconds: what else the machine does is not in it.
fn now() -> i64 {
    const THREAD_CPU_TIME: i32 = 3;
    let mut time = [0; 2];
    assert_eq!(unsafe { clock_gettime(THREAD_CPU_TIME, &mut time) }, 0);
    time[0] * 1_000_000_000 + time[1]
}

fn nanoseconds(calls: &mut Calls, count: usize) -> f64 {
    let start = now();
    calls(count);
    (now() - start) as f64 / count as f64
}

/// So many calls that a round is long beside the clock and short beside a processor's turn.
fn round(calls: &mut Calls) -> usize {
    let mut count = 16;
    while nanoseconds(calls, count) * (count as f64) < ROUND_NS / 4.0 {
        count *= 2;
    }
    (ROUND_NS / nanoseconds(calls, count)) as usize + 1
}

fn median(mut rounds: Vec<f64>) -> f64 {
    rounds.sort_by(|a, b| a.partial_cmp(b).unwrap());
    rounds[rounds.len() / 2]
}

/// Of each the median of its rounds, the programs by turns.
pub fn medians(sides: &mut [Calls]) -> Vec<f64> {
    let counts: Vec<usize> = sides.iter_mut().map(round).collect();
    let mut rounds = vec![Vec::new(); sides.len()];
    for _ in 0..ROUNDS {
        for ((side, count), rounds) in sides.iter_mut().zip(&counts).zip(&mut rounds) {
            rounds.push(nanoseconds(side, *count));
        }
    }
    rounds.into_iter().map(median).collect()
}

pub fn measure(case: Case) -> Times {
    let mut sides = vec![case.ours, case.plain];
    sides.extend(case.bare);
    let medians = medians(&mut sides);
    Times {
        ours: medians[0],
        plain: medians[1],
        bare: medians.get(2).copied(),
    }
}
