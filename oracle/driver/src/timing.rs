//! The time that calls take.
use std::hint::black_box;
use std::time::{Duration, Instant};

/// How long a line is measured, and at least how many rounds.
const TIME: Duration = Duration::from_millis(400);
pub const ROUNDS: usize = 40;

/// What is timed: it may use what is lent, and answers a number that depends on all that it did.
pub type Work<'a, L> = &'a dyn Fn(&mut L) -> u64;

/// The least time of each, in nanoseconds, taken by turns.
pub fn by_turns<L, const N: usize>(lent: &mut L, works: [Work<L>; N]) -> [f64; N] {
    let mut least = [Duration::MAX; N];
    each_round(lent, works, |times| {
        for (time, least) in times.into_iter().zip(&mut least) {
            *least = time.min(*least);
        }
    });
    least.map(|time| time.as_secs_f64() * 1e9)
}

/// The times of every round, of which in each one work comes right after the other.
pub fn each_round<L, const N: usize>(
    lent: &mut L,
    works: [Work<L>; N],
    mut taken: impl FnMut([Duration; N]),
) {
    let start = Instant::now();
    let mut rounds = 0;
    while rounds < ROUNDS || start.elapsed() < TIME {
        taken(works.map(|work| {
            let start = processor_time();
            black_box(work(lent));
            processor_time() - start
        }));
        rounds += 1;
    }
}

/// The processor time that this thread has used. On a machine that others use too, the time in which they run does not count.
fn processor_time() -> Duration {
    #[repr(C)]
    struct Timespec {
        seconds: i64,
        nanoseconds: i64,
    }
    unsafe extern "C" {
        fn clock_gettime(clock: i32, time: *mut Timespec) -> i32;
    }
    /// CLOCK_THREAD_CPUTIME_ID of Linux, for which alone the archive is made.
    const THREAD: i32 = 3;
    let mut time = Timespec {
        seconds: 0,
        nanoseconds: 0,
    };
    let status = unsafe { clock_gettime(THREAD, &mut time) };
    assert_eq!(status, 0, "the thread's clock can be read");
    Duration::new(time.seconds as u64, time.nanoseconds as u32)
}

/// The name of the machine's processor.
pub fn processor() -> String {
    let machine = std::fs::read_to_string("/proc/cpuinfo").unwrap_or_default();
    let name = machine
        .lines()
        .find_map(|line| line.strip_prefix("model name")?.split_once(": "));
    name.map_or("unknown", |(_, name)| name).to_string()
}

/// Looks at a text: its length and its last byte, so that the compiler can leave out neither it nor its writing.
pub fn read(text: &[u8]) -> u64 {
    let text = black_box(text);
    text.len() as u64 + u64::from(text[text.len() - 1])
}

/// A plain copy of bytes to the beginning of a buffer: the floor of any conversion that gives as many.
pub fn copied(bytes: &[u8], buffer: &mut [u8]) -> u64 {
    let buffer = &mut buffer[..bytes.len()];
    buffer.copy_from_slice(bytes);
    read(buffer)
}
