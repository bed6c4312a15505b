//! bench [ROUNDS]: the Rust and the port on the same images in one run, in turn; nanoseconds for a step, the median of ROUNDS
//! (at least 5), and how the cost grows with steps and with written bytes. Both are the calls alone, on lent memory made before,
//! in processor time, so that what else runs on the machine counts for little.

use lanes::answer::Case;
use lanes::asm::*;
use lanes::original::{self, Text};
use lanes::port::{Call, ENTRY, HAS_RANGES, Lent, Port, ROW};
use lanes::range::InputRange;
use lanes::riscv32imc::Rv32SymbolLayout;
use lanes::riscv32imc_predicate::execute_invalid_channel_predicate;
use std::time::Duration;

/// The source register of `arithmetic`.
const LANES: u32 = 10;
const TOLD: u32 = 9;

/// A body of known length, repeated: x8 counts down.
fn repeated(times: u32, before: &[u32], body: &[u32]) -> Case {
    let mut code = Code::default();
    code.all(before).constant(8, times);
    let start = code.len();
    code.all(body).put(addi(8, 8, -1));
    let back = start - code.len();
    code.put(b(1, 8, 0, back)).put(0x4505).put(RET);
    Case::plain(code.0)
}

/// Additions, shifts and logic with `source`, which has a value for each lane or one for all.
fn arithmetic(steps: u32, source: u32) -> Case {
    let body = [
        r(0, 0, 5, 5, source),
        r(0, 4, 6, 6, 5),
        i(0x13, 1, 7, 6, 3),
        r(0x20, 0, 5, 7, 5),
        r(0, 7, 6, 5, 7),
        r(0, 3, 7, 5, 6),
        r(1, 0, 5, 5, source),
        addi(6, 6, 77),
    ];
    repeated(steps / 10, &[addi(5, 0, 1), addi(6, 0, 2), addi(7, 0, 3), addi(9, 0, 11)], &body)
}

fn division(steps: u32) -> Case {
    let body = [r(1, 4, 6, 5, 10), r(1, 5, 7, 5, 10), r(1, 6, 6, 5, 10), r(1, 7, 7, 5, 10)];
    repeated(steps / 6, &[lui(5, 0xfedc_b000)], &body)
}

/// Sets x9 for `by_x9`: one number for all lanes, or a power of two for each, by the input's low five bits.
fn number(n: i32) -> Vec<u32> {
    vec![addi(9, 0, n)]
}

fn powers() -> Vec<u32> {
    vec![addi(9, 0, 1), r(0, 1, 9, 9, 10)]
}

/// DIVU by funct7 1, SRL by 0: of values that differ, by x9.
fn by_x9(steps: u32, funct7: u32, x9: Vec<u32>) -> Case {
    let body = [6, 7, 6, 7].map(|rd| r(funct7, 5, rd, 5, 9));
    repeated(steps / 6, &[vec![lui(5, 0xfedc_b000), r(1, 0, 5, 5, 10)], x9].concat(), &body)
}

/// MUL by funct3 0, MULH by 1, MULHSU by 2, MULHU by 3.
fn product(steps: u32, funct3: u32) -> Case {
    let body = [r(1, funct3, 6, 5, 10), r(1, funct3, 7, 10, 5), r(1, funct3, 6, 5, 7), r(1, funct3, 7, 10, 6)];
    repeated(steps / 6, &[lui(5, 0xfedc_b000)], &body)
}

fn stack(steps: u32) -> Case {
    let body = [s(2, 2, 10, -16), load(2, 5, 2, -16), s(1, 2, 5, -8), load(4, 6, 2, -7), s(0, 2, 6, -4), load(1, 7, 2, -5)];
    repeated(steps / 8, &[s(2, 2, 0, -8)], &body)
}

fn branches(steps: u32) -> Case {
    repeated(steps / 6, &[addi(5, 0, 256), addi(6, 0, 1)], &[b(4, 5, 10, 4), b(6, 10, 5, 4), b(0, 6, 0, 4), b(5, 10, 6, 4)])
}

/// As many distinct bytes, a word at a time, from the middle of memory on.
fn filling(bytes: u32) -> Case {
    repeated(bytes / 4, &[lui(5, 0x8010_0000)], &[s(2, 5, 10, 0), addi(5, 5, 4)])
}

/// `bytes` written from the middle of memory on, then as many from `apart` further: with `apart` rows lent, the same rows are asked for.
fn meeting(bytes: u32, apart: u32) -> Case {
    let mut code = Code::default();
    for start in [0x8010_0000, 0x8010_0000 + apart] {
        code.constant(5, start).constant(8, bytes / 4).all(&[s(2, 5, 10, 0), addi(5, 5, 4), addi(8, 8, -1), b(1, 8, 0, -12)]);
    }
    Case::plain(code.all(&[0x4505, RET]).0.clone())
}

/// `bytes` written, then `loads` of a word that never was.
fn missing(bytes: u32, loads: u32) -> Case {
    let mut code = Code::default();
    code.constant(5, 0x8010_0000).constant(8, bytes / 4).all(&[s(2, 5, 10, 0), addi(5, 5, 4), addi(8, 8, -1), b(1, 8, 0, -12)]);
    code.constant(5, 0x8010_0000 - 0x1000).constant(8, loads).all(&[load(2, 6, 5, 0), addi(8, 8, -1), b(1, 8, 0, -8)]);
    Case::plain(code.all(&[0x4505, RET]).0.clone())
}

/// A loop of four words that is written past the image and run there.
fn written_loop(steps: u32) -> Case {
    let body = [r(0, 0, 5, 5, 10), addi(8, 8, -1), b(1, 8, 0, -8), jalr(0, 9, 0)];
    let mut code = Code::default();
    code.put(addi(5, 0, 1)).constant(7, 0x8010_0000).constant(8, steps / 3);
    for (at, word) in body.into_iter().enumerate() {
        code.constant(6, word).put(s(2, 7, 6, 4 * at as i32));
    }
    code.all(&[FENCE_I, jalr(9, 7, 0), 0x4505, RET]);
    Case::plain(code.0)
}

/// A handler as a compiler makes it: a frame, a test of the channel, a small loop, two events, in under 100 steps.
fn firmware() -> Case {
    let mut code = Code::default();
    code.put(0x1101).put(c_swsp(1, 28)).put(c_swsp(8, 24)).put(addi(15, 0, 6)).put(b(7, 10, 15, 8)).put(j(0, 4));
    code.constant(15, 0x8011_0000).put(addi(8, 0, 2));
    let start = code.len();
    code.put(load(2, 14, 15, 0)).put(c_slli(14, 2)).put(c_mv(13, 14)).put(c_slli(13, 1)).put(c_add(13, 14)).put(c_add(13, 15));
    code.put(addi(12, 0, 1)).put(s(2, 13, 12, 4)).put(addi(12, 0, 32)).put(s(2, 13, 12, 8)).put(s(2, 13, 8, 12));
    code.put(load(2, 14, 15, 0)).put(addi(14, 14, 1)).put(s(2, 15, 14, 0)).put(addi(8, 8, -1));
    let back = start - code.len();
    code.put(b(1, 8, 0, back)).put(addi(10, 0, -1)).put(c_lwsp(8, 24)).put(c_lwsp(1, 28)).put(0x6105).put(RET);
    Case { events: 0x8011_0004, event_count: 0x8011_0000, ..Case::plain(code.0) }
}

fn median(mut times: Vec<f64>) -> f64 {
    times.sort_by(f64::total_cmp);
    times[times.len() / 2]
}

unsafe extern "C" {
    fn clock_gettime(clock: i32, time: *mut [i64; 2]) -> i32;
}

/// The processor time of this thread, from the C library (Linux, 64 bits).
fn used() -> Duration {
    const CLOCK_THREAD_CPUTIME_ID: i32 = 3;
    let mut time = [0; 2];
    assert_eq!(unsafe { clock_gettime(CLOCK_THREAD_CPUTIME_ID, &mut time) }, 0);
    Duration::new(time[0] as u64, time[1] as u32)
}

/// Nanoseconds of one call; short ones are called often.
fn time(often: u32, mut call: impl FnMut()) -> f64 {
    let start = used();
    (0..often).for_each(|_| call());
    (used() - start).as_nanos() as f64 / f64::from(often)
}

/// A call from deeper on the stack. Where a call's words lie there changes its time by a tenth and more, so each round has its own depth.
#[inline(never)]
fn deeper(levels: usize, call: &mut dyn FnMut()) {
    let room = std::hint::black_box([0u8; 64]);
    match levels {
        0 => call(),
        _ => deeper(levels - 1, call),
    }
    std::hint::black_box(room);
}

/// The depth of a round: up to 4 KB, with no two of the first 41 alike.
fn depth(round: usize) -> usize {
    round * 12 % 41
}

/// The steps of an accepted run without events.
fn steps_of(port: &mut Port, call: Call, lent: Lent) -> f64 {
    let (status, written) = port.call(call, lent);
    assert_eq!((status, written % 14), (0, 21 % 14));
    ((written - 21) / 14) as f64
}

/// Steps, and nanoseconds for one, of calls that take turns; each is of an image without events.
fn measured_alone<const CALLS: usize>(port: &mut Port, calls: [Call; CALLS], lent: Lent, rounds: usize) -> (f64, [f64; CALLS]) {
    let steps = steps_of(port, calls[0], lent);
    assert!(calls.iter().all(|call| steps_of(port, *call, lent) == steps));
    let often = (20_000.0 / steps).max(1.0) as u32;
    let mut times = [const { Vec::new() }; CALLS];
    for round in 0..rounds {
        for (call, times) in calls.iter().zip(&mut times) {
            let mut once = || _ = std::hint::black_box(port.call(*call, lent));
            deeper(depth(round), &mut || times.push(time(often, &mut once)));
        }
    }
    (steps, times.map(|times| median(times) / steps))
}

/// All lanes, the Rust's and one, where the library has ranges.
const RANGES: [InputRange; 3] = [InputRange { first: 0, last: 255 }, InputRange::INVALID_CHANNELS, InputRange { first: 7, last: 7 }];

/// The same image over each range, by the port alone.
fn over_ranges(port: &mut Port, long: Lent, small: Lent, rounds: usize) {
    let of_lanes = RANGES.map(|range| format!(" {}-{}, ns a step |", range.first, range.last)).concat();
    println!("\n| image, over ranges | steps |{of_lanes}\n|---|---|---|---|---|");
    for (name, case, lent) in [
        ("ALU loop", arithmetic(100_000, LANES), long),
        ("division loop", division(100_000), long),
        ("loads and stores on the stack", stack(100_000), long),
        ("document 01's example", Case::plain(code(&[0x4505, RET])), small),
    ] {
        let (steps, times) = measured_alone(port, RANGES.map(|range| Call::Range(&case, range)), lent, rounds);
        println!("| {name} | {steps} |{}", times.map(|time| format!(" {time:.1} |")).concat());
    }
}

struct Timed {
    steps: f64,
    original: f64,
    port: f64,
}

fn measured(port: &mut Port, case: &Case, lent: Lent, rounds: usize) -> Timed {
    let input = case.input();
    let symbols = Rv32SymbolLayout { entry: case.entry, event_count: case.event_count, events: case.events };
    let result = original::run(Text::Unchanged, case).result.expect("the image is accepted");
    let (status, written) = port.call(Call::Input(&input), lent);
    assert_eq!((status, written), (0, (21 + 17 * result.events.len() + 14 * result.trace.len()) as u64));
    let steps = result.trace.len() as f64;
    let often = (20_000.0 / steps).max(1.0) as u32;
    let (mut originals, mut ports) = (Vec::new(), Vec::new());
    for round in 0..rounds {
        originals.push(time(often, || drop(std::hint::black_box(execute_invalid_channel_predicate(&case.image, symbols)))));
        let mut once = || _ = std::hint::black_box(port.call(Call::Input(&input), lent));
        deeper(depth(round), &mut || ports.push(time(often, &mut once)));
    }
    Timed { steps, original: median(originals), port: median(ports) }
}

fn main() {
    let rounds = std::env::args().nth(1).map_or(5, |word| word.parse().expect("a number")).max(5);
    let small = Lent { rows: 200 * ROW, trace: 2048 * ENTRY, output: 40_000 };
    let long = Lent { rows: 200 * ROW, trace: 1_000_000 * ENTRY, output: 14_001_000 };
    let port = &mut Port::new();
    let mut row = |name: &str, case: Case, lent: Lent| {
        let timed = measured(port, &case, lent, rounds);
        let each = |time: f64| time / timed.steps;
        let (steps, ratio) = (timed.steps, timed.original / timed.port);
        println!("| {name} | {steps} | {:.0} | {:.1} | {ratio:.1} |", each(timed.original), each(timed.port));
    };
    println!("median of {rounds} rounds\n\n| image | steps | Rust, ns a step | port, ns a step | ratio |\n|---|---|---|---|---|");
    row("ALU loop", arithmetic(100_000, LANES), long);
    row("ALU loop on told words", arithmetic(100_000, TOLD), long);
    row("division loop", division(100_000), long);
    row("DIVU by 64", by_x9(100_000, 1, number(64)), long);
    row("SRL by 6", by_x9(100_000, 0, number(6)), long);
    row("DIVU by 7", by_x9(100_000, 1, number(7)), long);
    row("DIVU by powers of two that differ", by_x9(100_000, 1, powers()), long);
    row("MUL loop", product(100_000, 0), long);
    row("loads and stores on the stack", stack(100_000), long);
    row("branch loop", branches(100_000), long);
    row("50,000 distinct bytes", filling(50_000), Lent { rows: 60_000 * ROW, ..long });
    row("firmware", firmware(), small);
    row("document 01's example", Case::plain(code(&[0x4505, RET])), small);
    row("a loop in written code", written_loop(20_000), long);
    for steps in [10_000, 100_000, 999_000] {
        row(&format!("ALU loop, about {steps} steps"), arithmetic(steps, LANES), long);
    }
    for bytes in [200, 2_000, 10_000, 50_000] {
        row(
            &format!("{bytes} distinct bytes, rows for them and stop's"),
            filling(bytes),
            Lent { rows: (bytes as usize + 4) * ROW, ..long },
        );
        row(&format!("{bytes} distinct bytes, twice the rows"), filling(bytes), Lent { rows: (2 * bytes as usize) * ROW, ..long });
    }
    for bytes in [200, 2_000, 10_000] {
        let rows = 2 * bytes as usize + 4;
        row(
            &format!("two blocks of {bytes} bytes that ask for the same rows"),
            meeting(bytes, rows as u32),
            Lent { rows: rows * ROW, ..long },
        );
        row(
            &format!("loads beside {bytes} written bytes, no row free"),
            missing(bytes, 1_000),
            Lent { rows: (bytes as usize + 4) * ROW, ..long },
        );
        row(
            &format!("loads beside {bytes} written bytes, half the rows free"),
            missing(bytes, 1_000),
            Lent { rows: (2 * bytes as usize) * ROW, ..long },
        );
    }
    for (name, funct3) in [("MULH", 1), ("MULHSU", 2), ("MULHU", 3)] {
        let case = product(100_000, funct3);
        assert!(original::run(Text::Unchanged, &case).result.is_err());
        let (steps, [time]) = measured_alone(port, [Call::Input(&case.input())], long, rounds);
        println!("| {name} loop | {steps} | refused | {time:.1} | |");
    }
    if HAS_RANGES {
        over_ranges(port, long, small, rounds);
    }
}
