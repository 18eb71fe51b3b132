//! Times the heap and the scan that it replaced: a take and a put on a queue of 2^6 to 2^18 keys, by the proved functions. Prints the
//! table of docs/PERFORMANCE.md, and writes its chart to the file that is named.
use std::fmt::Write;
use std::time::Instant;

// a slice passes as a pointer and then a length
extern "C" {
    fn put_key(keys: *mut u64, keys_len: usize, n: usize, key: u64);
    fn take_least(keys: *mut u64, keys_len: usize, n: usize) -> u64;
    fn take_next(keys: *mut u64, keys_len: usize, queued: usize) -> usize;
}

/// A key is distance × this + the entry's number.
const ENTRIES: u64 = 1 << 20;
/// Distances of keys that stand together in a queue differ by less than this.
const SPREAD: u64 = 1 << 24;
const ROUNDS: usize = 101;
/// A round takes about this long, or one call; few short rounds are cut by another program's turn.
const ROUND_NANOS: f64 = 250_000.0;

/// The key that is put as number t: its distance is drawn from a window that moves on as the near ones are taken, so that a queue of n
/// stays as it is, however many are taken. The two sides are given the same keys.
fn key(t: usize, n: usize) -> u64 {
    // the mixing of splitmix64
    let mut z = (t as u64).wrapping_add(1).wrapping_mul(0x9e37_79b9_7f4a_7c15);
    z = (z ^ (z >> 30)).wrapping_mul(0xbf58_476d_1ce4_e5b9);
    z = (z ^ (z >> 27)).wrapping_mul(0x94d0_49bb_1331_11eb);
    let passed = t.saturating_sub(n) as u64 * SPREAD / n as u64;
    (passed + (z ^ (z >> 31)) % SPREAD) * ENTRIES + t as u64 % ENTRIES
}

/// One side: its keys, which the put of the next key is, the entries that it took, and the rounds' times.
struct Side {
    take_put: fn(&mut [u64], u64) -> usize,
    keys: Vec<u64>,
    next: usize,
    taken: Vec<usize>,
    calls: usize,
    times: Vec<f64>,
}

impl Side {
    fn new(n: usize, put: fn(&mut [u64], usize, u64), take_put: fn(&mut [u64], u64) -> usize) -> Self {
        let mut keys = vec![0; n];
        for t in 0..n {
            put(&mut keys, t, key(t, n));
        }
        let mut side = Side { take_put, keys, next: n, taken: Vec::new(), calls: 64, times: Vec::new() };
        // a first round, not counted, tells how many calls a round has
        let nanos = side.round();
        side.calls = (ROUND_NANOS / nanos) as usize + 1;
        side
    }

    /// The time of a take and a put, over one round.
    fn round(&mut self) -> f64 {
        let n = self.keys.len();
        let put: Vec<u64> = (self.next..self.next + self.calls).map(|t| key(t, n)).collect();
        self.taken.reserve(self.calls);
        let start = Instant::now();
        for key in put {
            self.taken.push((self.take_put)(&mut self.keys, key));
        }
        let nanos = start.elapsed().as_nanos() as f64 / self.calls as f64;
        self.next += self.calls;
        nanos
    }

    fn median(&mut self) -> f64 {
        self.times.sort_by(f64::total_cmp);
        self.times[self.times.len() / 2]
    }
}

fn heap_put(keys: &mut [u64], n: usize, key: u64) {
    unsafe { put_key(keys.as_mut_ptr(), keys.len(), n, key) }
}

fn heap_take_put(keys: &mut [u64], key: u64) -> usize {
    let n = keys.len();
    let least = unsafe { take_least(keys.as_mut_ptr(), n, n) };
    heap_put(keys, n - 1, key);
    (least % ENTRIES) as usize
}

fn scan_put(keys: &mut [u64], n: usize, key: u64) {
    keys[n] = key;
}

fn scan_take_put(keys: &mut [u64], key: u64) -> usize {
    let n = keys.len();
    let entry = unsafe { take_next(keys.as_mut_ptr(), n, n) };
    scan_put(keys, n - 1, key);
    entry
}

/// The median times at one length, the scan's and the heap's; both must take the same entries.
fn at_length(n: usize) -> (f64, f64) {
    let mut scan = Side::new(n, scan_put, scan_take_put);
    let mut heap = Side::new(n, heap_put, heap_take_put);
    for _ in 0..ROUNDS {
        for side in [&mut scan, &mut heap] {
            let nanos = side.round();
            side.times.push(nanos);
        }
    }
    let both = scan.taken.len().min(heap.taken.len());
    assert!(scan.taken[..both] == heap.taken[..both], "at {n} keys the two take other entries");
    (scan.median(), heap.median())
}

const LEFT: f64 = 70.0;
const TOP: f64 = 50.0;
const WIDE: f64 = 560.0;
const HIGH: f64 = 260.0;

/// Where a time stands: each power of ten is as high as another.
fn height(nanos: f64) -> f64 {
    TOP + HIGH * (1.0 - (nanos.log10() - 1.0) / 5.0)
}

fn place(step: usize, steps: usize) -> f64 {
    LEFT + WIDE * step as f64 / (steps - 1) as f64
}

fn line(out: &mut String, points: &[f64], colour: &str, name: &str) {
    let drawn: Vec<String> = points.iter().enumerate().map(|(at, &nanos)| format!("{:.1},{:.1}", place(at, points.len()), height(nanos))).collect();
    writeln!(out, r#"<polyline points="{}" fill="none" stroke="{colour}" stroke-width="2"/>"#, drawn.join(" ")).unwrap();
    let (x, y) = (LEFT + WIDE + 6.0, height(points[points.len() - 1]) + 4.0);
    writeln!(out, r#"<text x="{x:.1}" y="{y:.1}" fill="{colour}">{name}</text>"#).unwrap();
}

fn svg(powers: &[u32], scan: &[f64], heap: &[f64]) -> String {
    let (width, height_all) = (LEFT + WIDE + 70.0, TOP + HIGH + 50.0);
    let mut out = String::new();
    writeln!(
        out,
        r#"<svg xmlns="http://www.w3.org/2000/svg" viewBox="0 0 {width} {height_all}" width="{width}" height="{height_all}" font-family="sans-serif" font-size="11">"#
    )
    .unwrap();
    writeln!(out, r#"<rect width="100%" height="100%" fill="white"/>"#).unwrap();
    writeln!(out, r#"<text x="12" y="22" font-size="15">A take and a put: nanoseconds by the number of queued keys (both scales by powers)</text>"#).unwrap();
    for power in 1..=6 {
        let nanos = 10f64.powi(power);
        let y = height(nanos);
        writeln!(out, r##"<line x1="{LEFT}" y1="{y:.1}" x2="{:.1}" y2="{y:.1}" stroke="#ddd"/>"##, LEFT + WIDE).unwrap();
        writeln!(out, r#"<text x="{:.1}" y="{:.1}" text-anchor="end">{nanos}</text>"#, LEFT - 6.0, y + 4.0).unwrap();
    }
    for (at, power) in powers.iter().enumerate() {
        writeln!(out, r#"<text x="{:.1}" y="{:.1}" text-anchor="middle">2^{power}</text>"#, place(at, powers.len()), TOP + HIGH + 20.0).unwrap();
    }
    line(&mut out, scan, "#b5433a", "scan");
    line(&mut out, heap, "#2a7f62", "heap");
    out.push_str("</svg>\n");
    out
}

fn main() {
    let powers: Vec<u32> = (6..=18).collect();
    let (mut scan, mut heap) = (Vec::new(), Vec::new());
    println!("| Keys | scan | heap | scan / heap |\n|---|---:|---:|---:|");
    for &power in &powers {
        let (before, after) = at_length(1 << power);
        println!("| 2^{power} | {before:.0} | {after:.0} | {:.1} |", before / after);
        scan.push(before);
        heap.push(after);
    }
    let chart = std::env::args().nth(1).expect("the chart's file");
    std::fs::write(chart, svg(&powers, &scan, &heap)).expect("the chart is written");
}
