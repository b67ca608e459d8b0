//! Times the proved tests of disc and work area, through C, against a twin in plain Rust, and compares their answers.
mod twin;

use std::hint::black_box;
use std::time::Instant;

extern "C" {
    fn arduinos_turn(disc: *mut u8, disc_len: usize, area: *mut u8, area_len: usize, slot: u32, clock: u32, out: *mut u8, out_len: usize) -> i32;
}

/// What the tests say, by a turn of a slot that is none: it is refused by 16 behind them all, and writes nothing.
fn proved(disc: &[u8], area: &[u8]) -> u32 {
    let mut out = [0u8; 32];
    let number = unsafe { arduinos_turn(disc.as_ptr() as *mut u8, disc.len(), area.as_ptr() as *mut u8, area.len(), 10, 0, out.as_mut_ptr(), out.len()) };
    if number == -16 {
        0
    } else {
        -number as u32
    }
}

/// xorshift64*, so that every run sees the same buffers.
struct Random(u64);

impl Random {
    fn below(&mut self, n: usize) -> usize {
        self.0 ^= self.0 >> 12;
        self.0 ^= self.0 << 25;
        self.0 ^= self.0 >> 27;
        ((self.0.wrapping_mul(0x2545F4914F6CDD1D) >> 33) as usize) % n
    }
}

fn put_word(bytes: &mut [u8], at: usize, n: usize) {
    bytes[at] = n as u8;
    bytes[at + 1] = (n >> 8) as u8;
}

/// Files whose names differ in their last byte alone, on a disc of that length; the last of ten ends where the disc does.
fn disc_of(files: usize, length: usize) -> Vec<u8> {
    let mut disc = vec![0u8; length];
    for i in 0..files {
        let e = &mut disc[i * 16..i * 16 + 16];
        e[..11].copy_from_slice(b"abcdefghijk");
        e[10] = b'k' + i as u8;
        put_word(e, 12, length - (files - i) * ((length - 161) / 10));
        put_word(e, 14, (length - 161) / 10 - 9 + i);
    }
    disc[160] = files as u8;
    disc
}

/// Live processes that run the last files and have one open; variables spread over them.
fn area_of(disc: &[u8], live: usize, variables: usize) -> Vec<u8> {
    let mut area = vec![0u8; 1056];
    let files = disc[160] as usize;
    for i in 0..live {
        let at = 416 + i * 64;
        let program = (files - 1 - i % files) * 16;
        let open = (i * 3 % files) * 16;
        area[at..at + 12].copy_from_slice(&disc[program..program + 12]);
        put_word(&mut area, at + 12, 100 + i * 7);
        area[at + 14] = if i % 3 == 0 { b'p' } else { b'r' };
        area[at + 16..at + 20].copy_from_slice(&disc[program + 12..program + 16]);
        put_word(&mut area, at + 20, i);
        put_word(&mut area, at + 22, if i % 2 == 0 { 0xFFFF } else { i });
        area[at + 24..at + 28].copy_from_slice(&disc[open + 12..open + 16]);
        put_word(&mut area, at + 28, i);
        area[at + 30] = 5;
    }
    put_word(&mut area, 407, 1000);
    let mut address = 0;
    for i in 0..variables {
        let at = 256 + i * 6;
        let kind = [1u8, 2, 4, 3][i % 4];
        let size = if kind == 3 { 1 + (i % 9) as u8 } else { kind };
        area[at] = b'a' + (if live < 7 { i } else { i % 13 }) as u8;
        area[at + 1] = kind;
        area[at + 2] = address;
        area[at + 3] = size;
        put_word(&mut area, at + 4, 100 + (i * 5 + i / 13) % live * 7);
        address += size;
    }
    area[406] = variables as u8;
    area
}

/// One to three small damages: a byte anywhere that is read, often by one up or down, or a copy of a field elsewhere.
fn damage(r: &mut Random, disc: &mut Vec<u8>, area: &mut Vec<u8>) {
    for _ in 0..1 + r.below(3) {
        match r.below(9) {
            0 => change(r, disc, 0, 161),
            1 => change(r, area, 406, 416),
            2 => change(r, area, 256, 406),
            3 | 4 => {
                let slot = r.below(10);
                change(r, area, 416 + slot * 64, 448 + slot * 64)
            }
            5 => copy_field(r, disc, 0, 16, 10, &[(0, 12), (12, 2), (14, 2), (12, 4)]),
            6 => copy_field(r, area, 256, 6, 25, &[(0, 1), (2, 1), (4, 2), (0, 6), (1, 2)]),
            7 => copy_field(r, area, 416, 64, 10, &[(0, 12), (12, 2), (14, 1), (16, 4), (20, 2), (24, 4), (28, 2), (0, 64)]),
            _ => {
                if r.below(40) == 0 {
                    disc.pop();
                } else if r.below(40) == 0 {
                    area.push(0);
                }
            }
        }
    }
}

fn change(r: &mut Random, bytes: &mut [u8], from: usize, to: usize) {
    let at = from + r.below(to - from);
    bytes[at] = match r.below(6) {
        0 => r.below(256) as u8,
        1 => 0,
        2 => [b'r', b'p', 1, 2, 3, 4, 30, 31, 32, 33, 126, 127, 255][r.below(13)],
        3 | 4 => bytes[at].wrapping_add(1),
        _ => bytes[at].wrapping_sub(1),
    };
}

fn copy_field(r: &mut Random, bytes: &mut [u8], base: usize, size: usize, count: usize, fields: &[(usize, usize)]) {
    let (offset, len) = fields[r.below(fields.len())];
    let from = base + r.below(count) * size + offset;
    let to = base + r.below(count) * size + offset;
    bytes.copy_within(from..from + len, to);
}

/// Answers on good and damaged buffers, which must be alike; how often each answer came.
fn compare(cases: usize) -> [usize; 4] {
    let mut r = Random(0x9E3779B97F4A7C15);
    let mut seen = [0usize; 4];
    for n in 0..cases {
        let length = [1024, 4096][r.below(2)];
        let mut disc = disc_of(1 + r.below(10), length);
        let live = 1 + r.below(10);
        let variables = r.below(26);
        let mut area = area_of(&disc, live, variables);
        if n % 8 != 0 {
            damage(&mut r, &mut disc, &mut area);
        }
        let (ours, theirs) = (proved(&disc, &area), twin::check(&disc, &area));
        if ours != theirs {
            eprintln!("case {n}: proved {ours}, twin {theirs}");
            std::process::exit(1);
        }
        seen[ours as usize] += 1;
    }
    seen
}

const BLOCKS: usize = 41;
const CALLS: usize = 2000;

/// ns of one call, the least of the blocks; the two are timed in turns.
fn time(disc: &[u8], area: &[u8]) -> (f64, f64) {
    let mut least = (f64::MAX, f64::MAX);
    for _ in 0..BLOCKS {
        least.0 = least.0.min(block(|| proved(black_box(disc), black_box(area))));
        least.1 = least.1.min(block(|| twin::check(black_box(disc), black_box(area))));
    }
    least
}

fn block(call: impl Fn() -> u32) -> f64 {
    let began = Instant::now();
    for _ in 0..CALLS {
        black_box(call());
    }
    began.elapsed().as_nanos() as f64 / CALLS as f64
}

fn main() {
    let cases = 100_000;
    let seen = compare(cases);
    println!(
        "{cases} buffers, same answers: {} pass, {} wrong length, {} bad disc, {} bad area",
        seen[0], seen[1], seen[2], seen[3]
    );
    let disc = disc_of(10, 1024);
    for (live, variables) in [(10, 25), (3, 5)] {
        let area = area_of(&disc, live, variables);
        assert_eq!(twin::check(&disc, &area), twin::PASS);
        let (ours, theirs) = time(&disc, &area);
        println!(
            "{live} live processes, {variables} variables, ten files: proved {ours:.0} ns, plain Rust {theirs:.0} ns, ratio {:.2}",
            ours / theirs
        );
    }
}
