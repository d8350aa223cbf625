//! The proved frame store beside queues of boxed frames in plain Rust: the time of one round, with few and with many
//! frames waiting, and with few and with many links.

use compare::random::Random;
use std::collections::VecDeque;
use std::hint::black_box;
use std::process::ExitCode;
use std::time::Instant;

const SEED: u64 = 62_439;
const RUNS: usize = 21;
const ROUNDS: usize = 1_000_000;

const OCTETS: usize = 60;
const FRAMES: usize = 128;
/// The direction that is measured.
const DIRECTION: usize = 1;

#[link(name = "measure_store", kind = "static")]
extern "C" {
    fn store_work(
        pass: bool,
        links: usize,
        link: usize,
        waiting: usize,
        count: usize,
        frames: *const u8,
        octets: usize,
    ) -> u64;
}

/// What is done in a round: put, take and drop, or take and pass on.
#[derive(Clone, Copy)]
struct Work {
    pass: bool,
    links: usize,
    /// How many frames wait, on the last link.
    waiting: usize,
}

impl Work {
    fn link(self) -> usize {
        self.links - 1
    }

    fn name(self) -> &'static str {
        match self.pass {
            true => "take, pass on",
            false => "put, take, drop",
        }
    }
}

type Measured = fn(Work, usize, &[u8]) -> u64;

const STORES: [Measured; 2] = [proved, plain];

fn proved(work: Work, count: usize, frames: &[u8]) -> u64 {
    // SAFETY: the call reads `frames` and nothing else.
    unsafe { store_work(work.pass, work.links, work.link(), work.waiting, count, frames.as_ptr(), frames.len()) }
}

struct Frame {
    octets: [u8; OCTETS],
    length: usize,
}

impl Frame {
    fn octets(&self) -> &[u8] {
        &self.octets[..self.length]
    }
}

/// The same calls with the same checks, over queues of boxed frames. The box is the frame in hand.
struct Plain {
    links: usize,
    queues: Vec<VecDeque<Box<Frame>>>,
    frames: usize,
}

impl Plain {
    fn new(links: usize) -> Option<Plain> {
        let queues = (0..2 * links).map(|_| VecDeque::with_capacity(FRAMES)).collect();
        (2..=50).contains(&links).then_some(Plain { links, queues, frames: 0 })
    }

    fn queue(&mut self, link: usize, direction: usize) -> Option<&mut VecDeque<Box<Frame>>> {
        if link >= self.links || direction >= 2 {
            return None;
        }
        self.queues.get_mut(2 * link + direction)
    }

    fn put(&mut self, link: usize, direction: usize, octets: &[u8]) -> Option<()> {
        if !(50..=OCTETS).contains(&octets.len()) || self.frames >= FRAMES {
            return None;
        }
        let queue = self.queue(link, direction)?;
        let mut frame = Box::new(Frame { octets: [0; OCTETS], length: octets.len() });
        frame.octets[..octets.len()].copy_from_slice(octets);
        queue.push_back(frame);
        self.frames += 1;
        Some(())
    }

    fn take(&mut self, link: usize, direction: usize) -> Option<Box<Frame>> {
        self.queue(link, direction)?.pop_front()
    }

    fn pass_on(&mut self, frame: Box<Frame>, link: usize, direction: usize) -> Option<()> {
        self.queue(link, direction)?.push_back(frame);
        Some(())
    }

    fn drop_frame(&mut self, frame: Box<Frame>) {
        drop(frame);
        self.frames -= 1;
    }
}

fn mix(sum: u64, octets: &[u8]) -> u64 {
    sum.wrapping_mul(31).wrapping_add(u64::from(octets[0]))
}

fn nth(frames: &[u8], number: usize) -> &[u8] {
    let start = OCTETS * (number % FRAMES);
    &frames[start..start + OCTETS]
}

fn filled(work: Work, frames: &[u8]) -> Option<Plain> {
    let mut store = Plain::new(work.links)?;
    for number in 0..work.waiting {
        store.put(work.link(), DIRECTION, nth(frames, number))?;
    }
    Some(store)
}

fn plain(work: Work, count: usize, frames: &[u8]) -> u64 {
    let sum = || {
        let mut store = filled(work, frames)?;
        let mut sum = 0;
        for number in 0..count {
            sum = match work.pass {
                true => turn(&mut store, work.link(), sum)?,
                false => round(&mut store, work.link(), nth(frames, number), sum)?,
            };
        }
        Some(sum)
    };
    sum().unwrap_or(0)
}

/// The queues stay in memory between rounds, as those of a running switch do.
fn round(store: &mut Plain, link: usize, octets: &[u8], sum: u64) -> Option<u64> {
    let store = black_box(store);
    store.put(link, DIRECTION, octets)?;
    let frame = store.take(link, DIRECTION)?;
    let sum = mix(sum, frame.octets());
    store.drop_frame(frame);
    Some(sum)
}

fn turn(store: &mut Plain, link: usize, sum: u64) -> Option<u64> {
    let store = black_box(store);
    let frame = store.take(link, DIRECTION)?;
    let sum = mix(sum, frame.octets());
    store.pass_on(frame, link, DIRECTION)?;
    Some(sum)
}

/// The times of a round in nanoseconds, shortest first. The two take turns.
fn times(work: Work, frames: &[u8]) -> [[f64; RUNS]; 2] {
    let mut times = [[0.0; RUNS]; 2];
    for run in 0..RUNS {
        for (times, store) in times.iter_mut().zip(STORES) {
            let start = Instant::now();
            black_box(store(black_box(work), black_box(ROUNDS), black_box(frames)));
            times[run] = start.elapsed().as_secs_f64() * 1e9 / ROUNDS as f64;
        }
    }
    for times in &mut times {
        times.sort_by(f64::total_cmp);
    }
    times
}

/// Both have to meet the same frames in the same order.
fn same_sums(work: Work, frames: &[u8]) -> Result<(), String> {
    let sums = STORES.map(|store| store(work, 1_000, frames));
    match sums[0] == sums[1] && sums[0] != 0 {
        true => Ok(()),
        false => Err(format!("{}: the sums are {sums:?}", work.name())),
    }
}

fn measure(frames: &[u8]) -> Result<(), String> {
    println!("{:<16} {:>5} {:>7} {:>15} {:>15} {:>12}", "ns", "links", "waiting", "store", "plain", "plain/store");
    for pass in [false, true] {
        for (links, waiting) in [(2, 1), (2, 127), (50, 1), (50, 127)] {
            let work = Work { pass, links, waiting };
            same_sums(work, frames)?;
            let [store, plain] = times(work, frames);
            let shown = |times: &[f64; RUNS]| format!("{:.2} / {:.2}", times[0], times[RUNS / 2]);
            let ratio = format!("{:.2} / {:.2}", plain[0] / store[0], plain[RUNS / 2] / store[RUNS / 2]);
            let name = work.name();
            println!("{name:<16} {links:>5} {waiting:>7} {:>15} {:>15} {ratio:>12}", shown(&store), shown(&plain));
        }
    }
    println!("each: the shortest of {RUNS} runs / their median");
    Ok(())
}

fn main() -> ExitCode {
    let mut random = Random::new(SEED);
    let frames: Vec<u8> = (0..FRAMES * OCTETS).map(|_| random.octet()).collect();
    match measure(&frames) {
        Ok(()) => ExitCode::SUCCESS,
        Err(error) => {
            eprintln!("bench_store: {error}");
            ExitCode::FAILURE
        }
    }
}
