//! The library and the second emulator on the same lists: ns a board cycle (both chips), best of several, interleaved.

use livetest::traffic;
use second::rng::Rng;
use std::arch::asm;
use std::mem::size_of;
use vindoshaka::{level, raw, Board, Options};

const ROUNDS: usize = 40;

/// The processor time of this thread: other work on the machine is left out.
fn now() -> f64 {
    #[repr(C)]
    struct Time {
        seconds: i64,
        nanos: i64,
    }
    extern "C" {
        fn clock_gettime(clock: i32, time: *mut Time) -> i32;
    }
    const THREAD_CPU: i32 = 3;
    let mut time = Time {
        seconds: 0,
        nanos: 0,
    };
    // SAFETY: C's struct timespec of 64-bit Linux, written by the call.
    assert_eq!(unsafe { clock_gettime(THREAD_CPU, &mut time) }, 0);
    time.seconds as f64 * 1e9 + time.nanos as f64
}

/// What a run ended in counts as read, so that no work of it is left out.
fn keep<T>(ended: &T) {
    // SAFETY: no instruction; the compiler must believe that the memory is read.
    unsafe { asm!("/* {0} */", in(reg) ended, options(nostack, preserves_flags)) }
}

struct Case {
    name: &'static str,
    options: Options,
    events_6846: Vec<u32>,
    events_6840: Vec<u32>,
    batch: u32,
    cycles: u32,
}

fn options(wire: u32) -> Options {
    Options {
        io_code: 1,
        wire,
        ..Options::default()
    }
}

fn write_6846(register: u32, byte: u32) -> u32 {
    1 | 1 << 2 | register << 4 | byte << 16
}

fn write_6840(register: u32, byte: u32) -> u32 {
    1 | register << 2 | byte << 16
}

/// All four timers count internal clocks, gates low, outputs on.
fn set_up(latch: u32, first: &mut Vec<u32>, other: &mut Vec<u32>) {
    let (levels, low) = (level::ALL_6846 & !level::CTG, 0x47);
    first.extend([1, levels, write_6846(6, latch / 256)]);
    first.extend([2, levels, write_6846(7, latch % 256)]);
    first.extend([3, levels, write_6846(5, 0x82)]);
    let accesses = [
        write_6840(0, 0x82),
        write_6840(2, 3),
        write_6840(3, 200),
        write_6840(5, 201),
        write_6840(7, 202),
        write_6840(1, 0x83),
        write_6840(0, 0x82),
    ];
    for (at, access) in accesses.into_iter().enumerate() {
        other.extend([at as u32 + 1, low, access]);
    }
}

fn quiet(name: &'static str, batch: u32, cycles: u32) -> Case {
    let (mut first, mut other) = (Vec::new(), Vec::new());
    set_up(1000, &mut first, &mut other);
    Case {
        name,
        options: options(0),
        events_6846: first,
        events_6840: other,
        batch,
        cycles,
    }
}

/// CTO turns in every cycle, and timer 1 of the 6840 counts it; a batch stays below the book's 64.
fn toggling(cycles: u32) -> Case {
    let (mut first, mut other) = (Vec::new(), Vec::new());
    set_up(0, &mut first, &mut other);
    let last = other.len() - 1;
    other[last] = write_6840(0, 0x80);
    Case {
        name: "wired clock, toggling each cycle, batches of 60",
        options: options(1),
        events_6846: first,
        events_6840: other,
        batch: 60,
        cycles,
    }
}

/// After the set-up a bus access every three cycles or so, on each chip.
fn busy(cycles: u32) -> Case {
    let (mut first, mut other) = (Vec::new(), Vec::new());
    set_up(1000, &mut first, &mut other);
    let mut rng = Rng::new(1);
    let options = options(0);
    let mut at = 10;
    while at < cycles {
        at += rng.between(1, 5);
        let pins = rng.below(256);
        let levels = level::ALL_6846 & !level::CTG & !level::P | pins;
        first.extend([at, levels, traffic::access_6846(&mut rng, &options)]);
        other.extend([at, 0x47, traffic::access_6840(&mut rng)]);
    }
    Case {
        name: "busy firmware, an access every three cycles, batches of 1,000",
        options,
        events_6846: first,
        events_6840: other,
        batch: 1000,
        cycles,
    }
}

fn library(case: &Case, rom: &[u8]) -> f64 {
    let mut board = Board::start(case.options, 0).expect("a legal start");
    let mut answers_6846 = vec![0; case.events_6846.len() / 3];
    let mut answers_6840 = vec![0; case.events_6840.len() / 3];
    let began = now();
    for _ in 0..case.cycles / case.batch {
        let a = board.move_6846_by(rom, &case.events_6846, &mut answers_6846, case.batch);
        let b = board.move_6840_by(&case.events_6840, &mut answers_6840, case.batch);
        assert_eq!((a.count, b.count), (case.batch, case.batch));
    }
    let took = now() - began;
    keep(&(board, answers_6846, answers_6840));
    took / (case.cycles / case.batch * case.batch) as f64
}

fn second(case: &Case, rom: &[u8]) -> f64 {
    let o = &case.options;
    let (mut board, _) = second::Board::start(o.rom_code, o.io_code, o.a6, o.extra, o.wire, 0);
    let mut answers_6846 = vec![0; case.events_6846.len() / 3];
    let mut answers_6840 = vec![0; case.events_6840.len() / 3];
    let began = now();
    for _ in 0..case.cycles / case.batch {
        let a = board.move_6846(rom, &case.events_6846, &mut answers_6846, case.batch);
        let b = board.move_6840(&case.events_6840, &mut answers_6840, case.batch);
        assert_eq!((a.1, b.1), (case.batch, case.batch));
    }
    let took = now() - began;
    keep(&(board, answers_6846, answers_6840));
    took / (case.cycles / case.batch * case.batch) as f64
}

/// A call for the painted stack.
struct Call<'a> {
    board: raw::Board,
    rom: &'a [u8],
    events: &'a [u32],
    answers: Vec<u16>,
    cycles: u32,
}

extern "C" fn call_6846(call: &mut Call) {
    // SAFETY: pointers with the lengths of their slices.
    unsafe {
        raw::vindoshaka_move_6846(
            &mut call.board,
            call.rom.as_ptr(),
            call.rom.len(),
            call.events.as_ptr(),
            call.events.len(),
            call.answers.as_mut_ptr(),
            call.answers.len(),
            call.cycles,
        );
    }
}

extern "C" fn call_6840(call: &mut Call) {
    // SAFETY: pointers with the lengths of their slices.
    unsafe {
        raw::vindoshaka_move_6840(
            &mut call.board,
            call.events.as_ptr(),
            call.events.len(),
            call.answers.as_mut_ptr(),
            call.answers.len(),
            call.cycles,
        );
    }
}

/// Calls on a stack painted beforehand; gives the bytes that lost their paint.
fn stack_of(call: &mut Call, run: extern "C" fn(&mut Call)) -> usize {
    const PAINT: u8 = 0xa5;
    let mut stack = vec![PAINT; 256 * 1024];
    let top = (stack.as_mut_ptr() as usize + stack.len()) & !63;
    // SAFETY: the callee runs on the vector's memory, which outlives it, and the old stack pointer comes back.
    unsafe {
        #[cfg(target_arch = "x86_64")]
        asm!(
            "mov r12, rsp",
            "mov rsp, {top}",
            "call {run}",
            "mov rsp, r12",
            top = in(reg) top,
            run = in(reg) run,
            in("rdi") call,
            out("r12") _,
            clobber_abi("C"),
        );
        #[cfg(target_arch = "aarch64")]
        asm!(
            "mov x20, sp",
            "mov sp, {top}",
            "blr {run}",
            "mov sp, x20",
            top = in(reg) top,
            run = in(reg) run,
            in("x0") call,
            out("x20") _,
            clobber_abi("C"),
        );
    }
    let from = stack
        .iter()
        .position(|&byte| byte != PAINT)
        .unwrap_or(stack.len());
    top - (stack.as_ptr() as usize + from)
}

fn main() {
    let cores = std::thread::available_parallelism().map_or(1, |cores| cores.get());
    println!("{cores} cores; ns a board cycle (both chips), best of {ROUNDS}");
    let rom = vec![0x5a; 2048];
    let cases = [
        quiet("quiet, timers running, batches of 1,000", 1000, 100_000),
        toggling(100_000),
        busy(100_000),
        quiet("quiet, one call a cycle", 1, 20_000),
    ];
    println!("{:>9} {:>9} {:>6}", "library", "second", "ratio");
    for case in &cases {
        let (mut ours, mut theirs) = (f64::MAX, f64::MAX);
        for _ in 0..ROUNDS {
            ours = ours.min(library(case, &rom));
            theirs = theirs.min(second(case, &rom));
        }
        println!(
            "{ours:9.1} {theirs:9.1} {:6.2}  {}",
            ours / theirs,
            case.name
        );
    }
    println!("record: {} bytes", size_of::<raw::Board>());
    let case = busy(2_000);
    for (name, events, run) in [
        (
            "6846",
            &case.events_6846,
            call_6846 as extern "C" fn(&mut Call),
        ),
        ("6840", &case.events_6840, call_6840),
    ] {
        let started = Board::start(case.options, 0).expect("a legal start");
        let mut call = Call {
            board: *started.record(),
            rom: &rom,
            events,
            answers: vec![0; events.len() / 3],
            cycles: 2_000,
        };
        let bytes = stack_of(&mut call, run);
        println!("stack of a {name} move: {bytes} bytes, painted, with the caller's frame");
    }
}
