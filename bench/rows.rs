// Times a row of the maker against a plain program written for the purpose: same tape, same machine, both optimised, output
// cleared before. Both rows are compared byte for byte first.
use std::time::Instant;

extern "C" {
    fn weldlatch_row(
        n: u8,
        state: u32,
        count: u32,
        width: u32,
        secret: *const u8,
        secret_len: usize,
        out: *mut u8,
        out_len: usize,
        work: *mut u8,
        work_len: usize,
    ) -> u8;
}

const WIDTH: usize = 1024;
const SUPPLY: u32 = 1 << 20;

fn proved(n: u8, start: u32, secret: &[u8], out: &mut [u8], work: &mut [u8]) -> u8 {
    // SAFETY: the pointers and lengths are those of slices that live through the call and do not overlap.
    unsafe {
        weldlatch_row(
            n,
            start,
            SUPPLY,
            WIDTH as u32,
            secret.as_ptr(),
            secret.len(),
            out.as_mut_ptr(),
            out.len(),
            work.as_mut_ptr(),
            work.len(),
        )
    }
}

struct Tape {
    state: u32,
    count: u32,
}

impl Tape {
    fn next(&mut self) -> Option<u8> {
        if self.count == 0 {
            return None;
        }
        let byte = (self.state >> 24) as u8;
        self.state = self.state.wrapping_mul(1664525).wrapping_add(1013904223);
        self.count -= 1;
        Some(byte)
    }
}

fn digit(tape: &mut Tape, base: u32) -> Option<usize> {
    let bound = 256 - 256 % base;
    loop {
        let byte = u32::from(tape.next()?);
        if byte < bound {
            return Some((byte % base) as usize);
        }
    }
}

// All of n, as one would write it without a proof: the cells come from the column's number, the order from a small list.
fn plain(n: usize, start: u32, secret: &[u8], out: &mut [u8]) -> Option<()> {
    let m = 1usize << (n - 1);
    let size = (WIDTH * m + 7) / 8;
    let mut tape = Tape { state: start, count: SUPPLY };
    let mut order = [0u8; 128];
    for c in 0..WIDTH {
        let black = secret[c / 8] >> (7 - c % 8) & 1 == 1;
        for (j, column) in order[..m].iter_mut().enumerate() {
            *column = j as u8;
        }
        for taken in 0..m - 1 {
            let place = digit(&mut tape, (m - taken) as u32)?;
            order[taken..=taken + place].rotate_right(1);
        }
        for p in 0..m {
            let column = order[p];
            let bit = c * m + p;
            let mask = 128u8 >> (bit % 8);
            for i in 0..n - 1 {
                if column >> i & 1 == 1 {
                    out[i * size + bit / 8] |= mask;
                }
            }
            if (column.count_ones() % 2 == 1) != black {
                out[(n - 1) * size + bit / 8] |= mask;
            }
        }
    }
    Some(())
}

// The same, tuned: the cells of each column as bits, asked once, and squares set without a branch.
fn tuned(n: usize, start: u32, secret: &[u8], out: &mut [u8]) -> Option<()> {
    let m = 1usize << (n - 1);
    let size = (WIDTH * m + 7) / 8;
    let mut cells = [[0u8; 128]; 2];
    for (black, table) in cells.iter_mut().enumerate() {
        for (j, bits) in table[..m].iter_mut().enumerate() {
            let last = (j.count_ones() as usize + black) % 2;
            *bits = (j | last << (n - 1)) as u8;
        }
    }
    let mut tape = Tape { state: start, count: SUPPLY };
    let mut order = [0u8; 128];
    for c in 0..WIDTH {
        let table = &cells[usize::from(secret[c / 8] >> (7 - c % 8) & 1)];
        for (j, column) in order[..m].iter_mut().enumerate() {
            *column = j as u8;
        }
        for taken in 0..m - 1 {
            let place = digit(&mut tape, (m - taken) as u32)?;
            let column = order[taken + place];
            order.copy_within(taken..taken + place, taken + 1);
            order[taken] = column;
        }
        for p in 0..m {
            let bits = table[usize::from(order[p] & 127)];
            let bit = c * m + p;
            let (byte, shift) = (bit / 8, 7 - bit % 8);
            for i in 0..n {
                out[i * size + byte] |= (bits >> i & 1) << shift;
            }
        }
    }
    Some(())
}

// The shortest of many runs, in nanoseconds a row.
fn shortest(mut row: impl FnMut(u32)) -> f64 {
    let mut best = f64::MAX;
    for start in 0..400 {
        let begun = Instant::now();
        row(start);
        best = best.min(begun.elapsed().as_nanos() as f64);
    }
    best
}

fn main() {
    let secret: Vec<u8> = (0..WIDTH / 8).map(|i| (i * 73 + 41) as u8).collect();
    for n in [2usize, 4] {
        let m = 1usize << (n - 1);
        let total = n * ((WIDTH * m + 7) / 8);
        let (mut ours, mut theirs, mut work) = (vec![0u8; total], vec![0u8; total], vec![0u8; m]);
        let mut third = vec![0u8; total];
        for start in 0..100 {
            ours.fill(0);
            theirs.fill(0);
            assert_eq!(proved(n as u8, start, &secret, &mut ours, &mut work), 0);
            assert!(plain(n, start, &secret, &mut theirs).is_some());
            assert_eq!(ours, theirs, "all of {n}, tape {start}");
            third.fill(0);
            assert!(tuned(n, start, &secret, &mut third).is_some());
            assert_eq!(ours, third, "all of {n}, tape {start}");
        }
        let a = shortest(|start| {
            ours.fill(0);
            proved(n as u8, start, &secret, &mut ours, &mut work);
        });
        let b = shortest(|start| {
            theirs.fill(0);
            plain(n, start, &secret, &mut theirs);
        });
        let t = shortest(|start| {
            third.fill(0);
            tuned(n, start, &secret, &mut third);
        });
        println!(
            "all of {n}, {WIDTH} pixels: maker {:.1} us; plain {:.1} us, ratio {:.2}; tuned {:.1} us, ratio {:.2}",
            a / 1000.0,
            b / 1000.0,
            a / b,
            t / 1000.0,
            a / t
        );
    }
}
