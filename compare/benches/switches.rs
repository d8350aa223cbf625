//! Addresses learned and looked up in a second, in a full table: by the proved table switch, and by plain Rust.

use compare::random::Random;
use compare::speed::{print_heading, print_speeds, runs};
use compare::table::{Port, Table};
use std::hint::black_box;
use std::process::ExitCode;

const SEED: u64 = 62_439;
const ROUNDS: u32 = 50_000;
const KNOWN: usize = 64;

type Address = [u8; 6];
/// Fills a table with the first addresses, does one call with each of the second in many rounds, and sums the answers.
type Loop = fn(&[Address], &[Address], u32) -> u32;

#[link(name = "measure_switch", kind = "static")]
extern "C" {
    fn switch_look_up(known: *const Address, knowns: usize, asked: *const Address, askeds: usize, rounds: u32) -> u32;
    fn switch_learn(known: *const Address, knowns: usize, heard: *const Address, heards: usize, rounds: u32) -> u32;
}

fn library_look_up(known: &[Address], asked: &[Address], rounds: u32) -> u32 {
    // SAFETY: each pointer and its length are those of one slice, which outlives the call.
    unsafe { switch_look_up(known.as_ptr(), known.len(), asked.as_ptr(), asked.len(), rounds) }
}

fn library_learn(known: &[Address], heard: &[Address], rounds: u32) -> u32 {
    // SAFETY: as in `library_look_up`.
    unsafe { switch_learn(known.as_ptr(), known.len(), heard.as_ptr(), heard.len(), rounds) }
}

fn filled(known: &[Address]) -> Table {
    let mut table = Table::default();
    learn_all(&mut table, known, Port::One, 0);
    table
}

fn sum_with(sum: u32, answer: u32) -> u32 {
    sum.wrapping_mul(31).wrapping_add(answer)
}

fn look_up_all(table: &Table, asked: &[Address], start: u32) -> u32 {
    asked.iter().fold(start, |sum, address| sum_with(sum, table.port_of(*address).map_or(0, |port| port as u32)))
}

fn plain_look_up(known: &[Address], asked: &[Address], rounds: u32) -> u32 {
    let table = filled(known);
    (0..rounds).fold(0, |sum, _| look_up_all(&table, asked, sum))
}

fn learn_all(table: &mut Table, heard: &[Address], port: Port, start: u32) -> u32 {
    heard.iter().fold(start, |sum, address| {
        sum_with(sum, table.learn(*address, port).map_or_else(|refusal| refusal as u32, |()| 0))
    })
}

fn plain_learn(known: &[Address], heard: &[Address], rounds: u32) -> u32 {
    let mut table = filled(known);
    let mut sum = 0;
    for _ in 0..rounds {
        sum = learn_all(&mut table, heard, Port::Two, sum);
        sum = learn_all(&mut table, heard, Port::One, sum);
    }
    look_up_all(&table, heard, sum)
}

/// What is measured: its name, the calls in a round for each address, the library and plain Rust.
const MEASURED: [(&str, usize, [Loop; 2]); 2] =
    [("look up", 1, [library_look_up, plain_look_up]), ("learn", 2, [library_learn, plain_learn])];

fn same_sums(title: &str, known: &[Address], given: &[Address], loops: [Loop; 2]) -> Result<(), String> {
    for rounds in [0, 1, 2, ROUNDS] {
        let [library, plain] = loops.map(|run| run(known, given, rounds));
        if library != plain {
            return Err(format!("{title}, {rounds} rounds: the library's sum is {library}, the plain one is {plain}"));
        }
    }
    Ok(())
}

fn measure_loops(title: &str, calls: usize, known: &[Address], given: &[Address], loops: [Loop; 2]) {
    let work = |run: Loop| {
        move || {
            black_box(run(black_box(known), black_box(given), ROUNDS));
        }
    };
    let speeds = runs(calls * given.len() * ROUNDS as usize, loops.map(work));
    print_speeds(title, &["library", "plain"], &speeds);
}

/// Stations whose addresses begin with these octets.
fn stations(random: &mut Random, maker: &[u8]) -> [Address; KNOWN] {
    std::array::from_fn(|_| {
        let mut address: Address = random.octets();
        address[0] &= 0xFE;
        address[..maker.len()].copy_from_slice(maker);
        address
    })
}

fn measure() -> Result<(), String> {
    print_heading();
    let mut random = Random::new(SEED);
    for (makers, maker) in [("any makers", &[][..]), ("one maker", &[0x08, 0x00, 0x06][..])] {
        let known = stations(&mut random, maker);
        let unknown = stations(&mut random, maker);
        for (what, given) in [("known", &known), ("unknown", &unknown)] {
            for (name, calls, loops) in MEASURED {
                let title = format!("{name} {what}, {makers}");
                same_sums(&title, &known, given, loops)?;
                measure_loops(&title, calls, &known, given, loops);
            }
        }
    }
    Ok(())
}

fn main() -> ExitCode {
    match measure() {
        Ok(()) => ExitCode::SUCCESS,
        Err(error) => {
            eprintln!("switches: {error}");
            ExitCode::FAILURE
        }
    }
}
