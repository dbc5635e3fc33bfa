//! CPU time of this thread.

/// The times of clock_gettime.
#[repr(C)]
struct Time {
    seconds: i64,
    nanoseconds: i64,
}

extern "C" {
    fn clock_gettime(clock: i32, time: *mut Time) -> i32;
}

const THREAD_CPU_TIME: i32 = 3;

/// Seconds of CPU time that this thread has spent.
pub fn now() -> f64 {
    let mut time = Time {
        seconds: 0,
        nanoseconds: 0,
    };
    let failed = unsafe { clock_gettime(THREAD_CPU_TIME, &mut time) };
    assert_eq!(failed, 0, "the clock of the thread is there");
    time.seconds as f64 + time.nanoseconds as f64 * 1e-9
}

/// The seconds of one call.
pub fn once(mut call: impl FnMut()) -> f64 {
    let begin = now();
    call();
    now() - begin
}

/// The least seconds of a batch of calls. On a short interval the clock now and then says too little, even nothing, and the
/// least of many would be just that; a batch makes it a small part.
const BATCH: f64 = 0.002;

/// Batches are repeated until so many seconds were spent.
const SPENT: f64 = 0.02;

/// How many batches there are at least; fewer of long calls.
fn batches_for(seconds: f64) -> u32 {
    match seconds {
        _ if seconds < 0.2 => 5,
        _ if seconds < 1.5 => 3,
        _ => 1,
    }
}

/// The seconds of a batch of so many calls; of more where these are too short.
fn batch(mut call: impl FnMut(), calls: &mut u32) -> f64 {
    loop {
        let seconds = once(|| (0..*calls).for_each(|_| call()));
        if seconds >= BATCH {
            return seconds;
        }
        *calls *= 2;
    }
}

/// The seconds of a call, in the best of several batches.
pub fn best(mut call: impl FnMut()) -> f64 {
    let (mut calls, mut batches) = (1, 0);
    let (mut least, mut spent) = (f64::INFINITY, 0.0);
    loop {
        let seconds = batch(&mut call, &mut calls);
        least = least.min(seconds / f64::from(calls));
        spent += seconds;
        batches += 1;
        if spent >= SPENT && batches >= batches_for(seconds) {
            return least;
        }
    }
}

/// How many batches each of several calls has in turn.
const TURNS: usize = 10;

/// The seconds of each of several calls, in the best of its batches. The batches go in turn, so that what else the machine
/// does falls on all.
pub fn best_in_turn<const N: usize>(mut calls: [&mut dyn FnMut(); N]) -> [f64; N] {
    let (mut least, mut sizes) = ([f64::INFINITY; N], [1; N]);
    for _ in 0..TURNS {
        for i in 0..N {
            let seconds = batch(&mut calls[i], &mut sizes[i]);
            least[i] = least[i].min(seconds / f64::from(sizes[i]));
        }
    }
    least
}
