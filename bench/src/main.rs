//! Cycles per second of the proved machine beside those of a plain Rust interpreter.
mod clock;
mod images;
mod plain;
mod proved;

const WORDS: usize = 65536;
const CYCLES_A_RUN: u32 = 1_000_000;

/// What a machine leaves: the cycles, and sums over memory and output.
#[derive(PartialEq, Eq, Debug, Clone, Copy)]
struct Left {
    cycles: u32,
    memory: u64,
    output: u64,
}

fn sum_of(words: &[u16]) -> u64 {
    words.iter().fold(0xCBF2_9CE4_8422_2325, |sum, &word| {
        (sum ^ u64::from(word)).wrapping_mul(0x0000_0100_0000_01B3)
    })
}

struct Job {
    name: &'static str,
    image: Vec<u16>,
    input: Vec<u16>,
    room: usize,
}

const RUNS: u32 = 2;

type Runs = fn(&[u16], &mut [u16], &[u16], &mut [u16], u32) -> u32;

#[inline(never)]
fn run_plain(image: &[u16], memory: &mut [u16], input: &[u16], output: &mut [u16], runs: u32) -> u32 {
    let mut machine = plain::Machine::new();
    let mut tape = plain::Tape::new(input, output);
    if machine.load(image, memory).is_err() {
        return 0;
    }
    for _ in 0..runs {
        if machine.run(CYCLES_A_RUN, memory, &mut tape).is_err() {
            break;
        }
    }
    machine.count()
}

struct Buffers {
    memory: Vec<u16>,
    output: Vec<u16>,
}

/// Seconds of processor time that one call takes, and what it leaves.
fn time(job: &Job, buffers: &mut Buffers, runs: Runs) -> (f64, Left) {
    let output = &mut buffers.output[0..job.room];
    output.fill(0);
    let start = clock::seconds();
    let cycles = runs(&job.image, &mut buffers.memory, &job.input, output, RUNS);
    let seconds = clock::seconds() - start;
    let left = Left {
        cycles,
        memory: sum_of(&buffers.memory),
        output: sum_of(output),
    };
    (seconds, left)
}

fn median(mut figures: Vec<f64>) -> f64 {
    figures.sort_by(f64::total_cmp);
    figures[figures.len() / 2]
}

fn highest(figures: &[f64]) -> f64 {
    figures.iter().copied().fold(0.0, f64::max)
}

/// Switch words of which most repeat the one before.
fn recording(count: usize) -> Vec<u16> {
    let mut state: u32 = 2_463_534_242;
    let mut word = 0;
    (0..count)
        .map(|_| {
            state ^= state << 13;
            state ^= state >> 17;
            state ^= state << 5;
            if state >> 28 == 0 {
                word = (state & 0xFFFF) as u16;
            }
            word
        })
        .collect()
}

fn main() {
    let rounds: usize = match std::env::args().nth(1) {
        Some(text) => text.parse().expect("the rounds, a number"),
        None => 201,
    };
    let room = (RUNS * CYCLES_A_RUN) as usize / 4;
    let jobs = [
        Job {
            name: "table",
            image: images::table(),
            input: Vec::new(),
            room: 0,
        },
        Job {
            name: "sort",
            image: images::sort(),
            input: Vec::new(),
            room: 0,
        },
        Job {
            name: "door",
            image: images::door(),
            input: recording(room),
            room,
        },
    ];
    let mut buffers = Buffers {
        memory: vec![0; WORDS],
        output: vec![0; room],
    };
    println!(
        "{rounds} rounds of {RUNS} runs of {CYCLES_A_RUN} cycles, memory of {WORDS} words; millions of cycles a second of processor time"
    );
    println!("              medians of all rounds          fastest rounds");
    println!("image      ours    plain    ratio      ours    plain    ratio");
    let mut lowest = f64::INFINITY;
    for job in &jobs {
        let (_, ours) = time(job, &mut buffers, proved::run);
        let (_, plain) = time(job, &mut buffers, run_plain);
        assert_eq!(ours, plain, "{}: the machines differ", job.name);
        assert_eq!(ours.cycles, RUNS * CYCLES_A_RUN, "{}: stopped early", job.name);
        let (mut speeds, mut others, mut ratios) = (Vec::new(), Vec::new(), Vec::new());
        for round in 0..rounds {
            let (a, b);
            if round % 2 == 0 {
                a = time(job, &mut buffers, proved::run);
                b = time(job, &mut buffers, run_plain);
            } else {
                b = time(job, &mut buffers, run_plain);
                a = time(job, &mut buffers, proved::run);
            }
            assert_eq!((a.1, b.1), (ours, ours), "{}: a round differs", job.name);
            speeds.push(f64::from(a.1.cycles) / a.0 / 1e6);
            others.push(f64::from(b.1.cycles) / b.0 / 1e6);
            ratios.push(b.0 / a.0);
        }
        let (best, other) = (highest(&speeds), highest(&others));
        let ratio = median(ratios);
        println!(
            "{:6} {:8.1} {:8.1} {:8.2}  {:8.1} {:8.1} {:8.2}",
            job.name,
            median(speeds),
            median(others),
            ratio,
            best,
            other,
            best / other
        );
        lowest = lowest.min(ratio);
    }
    println!("lowest median ratio {lowest:.2}");
}
