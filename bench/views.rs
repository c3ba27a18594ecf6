// Measures the collector over columns of views against a plain Rust loop that compares the byte slices and packs the same bits.
// Both sides read the same bytes in the same run; the best of nine counts. The columns are checked once, outside the measured time.
use std::time::Instant;

extern "C" {
    fn compare_views(
        bytes: *const u8, bytes_len: usize, buffer: usize, buffer_len: usize,
        left: usize, left_bitmap: usize, right: usize, right_bitmap: usize,
        nullable: bool, len: usize, op: u8, fixed: bool, again: usize,
        out: *mut u8, out_len: usize,
    ) -> u8;
}

struct Column<'a> {
    views: &'a [u8],
    bitmap: &'a [u8],
    buffer: &'a [u8],
}

impl<'a> Column<'a> {
    #[inline(always)]
    fn value(&self, i: usize) -> Option<&'a [u8]> {
        if !self.bitmap.is_empty() && (self.bitmap[i / 8] >> (i % 8)) & 1 == 0 {
            return None;
        }
        let view = &self.views[16 * i..16 * i + 16];
        let size = u32::from_le_bytes(view[0..4].try_into().unwrap()) as usize;
        if size <= 12 {
            return Some(&view[4..4 + size]);
        }
        let offset = u32::from_le_bytes(view[12..16].try_into().unwrap()) as usize;
        Some(&self.buffer[offset..offset + size])
    }
}

#[inline(always)]
fn plain_by(n: usize, out: &mut [u8], f: impl Fn(usize) -> bool) {
    for k in 0..n.div_ceil(8) {
        let mut byte = 0u8;
        for b in 0..8.min(n - 8 * k) {
            byte |= (f(8 * k + b) as u8) << b;
        }
        out[k] = byte;
    }
}

#[inline(never)]
fn plain(left: &Column, right: &Column, fixed: bool, n: usize, op: u8, out: &mut [u8]) {
    if fixed {
        let one = right.value(0);
        match op {
            0 => plain_by(n, out, |i| left.value(i) == one),
            1 => plain_by(n, out, |i| left.value(i) != one),
            2 => plain_by(n, out, |i| left.value(i) > one),
            3 => plain_by(n, out, |i| left.value(i) >= one),
            4 => plain_by(n, out, |i| left.value(i) < one),
            _ => plain_by(n, out, |i| left.value(i) <= one),
        }
    } else {
        match op {
            0 => plain_by(n, out, |i| left.value(i) == right.value(i)),
            1 => plain_by(n, out, |i| left.value(i) != right.value(i)),
            2 => plain_by(n, out, |i| left.value(i) > right.value(i)),
            3 => plain_by(n, out, |i| left.value(i) >= right.value(i)),
            4 => plain_by(n, out, |i| left.value(i) < right.value(i)),
            _ => plain_by(n, out, |i| left.value(i) <= right.value(i)),
        }
    }
}

fn time(mut f: impl FnMut()) -> f64 {
    let t = Instant::now();
    f();
    t.elapsed().as_secs_f64()
}

struct Random(u64);

impl Random {
    fn next(&mut self) -> u64 {
        self.0 ^= self.0 << 13;
        self.0 ^= self.0 >> 7;
        self.0 ^= self.0 << 17;
        self.0
    }
}

fn push_view(value: &[u8], views: &mut Vec<u8>, buffer: &mut Vec<u8>) {
    views.extend((value.len() as u32).to_le_bytes());
    if value.len() <= 12 {
        views.extend(value);
        views.resize(views.len() + 12 - value.len(), 0);
    } else {
        views.extend(&value[0..4]);
        views.extend(0u32.to_le_bytes());
        views.extend((buffer.len() as u32).to_le_bytes());
        buffer.extend(value);
    }
}

// What the values are like: short ones, long ones that differ in their first four bytes, long ones that begin alike, some of all.
#[derive(Clone, Copy)]
enum Shape { Short, Distinct, Shared, Equal, Mixed }

fn value(shape: Shape, r: &mut Random) -> Vec<u8> {
    match shape {
        Shape::Short => {
            let n = r.next() % 13;
            (0..n).map(|_| b'a' + (r.next() % 3) as u8).collect()
        }
        Shape::Distinct => {
            let mut v = (r.next() as u32).to_le_bytes().to_vec();
            let n = 12 + r.next() % 24;
            v.extend((0..n).map(|_| r.next() as u8));
            v
        }
        Shape::Shared => {
            let mut v = b"station/volcano/".to_vec();
            let n = r.next() % 16;
            v.extend((0..n).map(|_| b'a' + (r.next() % 3) as u8));
            v
        }
        Shape::Equal => {
            let mut v = b"station/volcano/north flank/channel ".to_vec();
            v.push(b'a' + (r.next() % 2) as u8);
            v
        }
        Shape::Mixed => match r.next() % 3 {
            0 => value(Shape::Short, r),
            1 => value(Shape::Distinct, r),
            _ => value(Shape::Shared, r),
        },
    }
}

fn measure(name: &str, shape: Shape, n: usize) -> bool {
    let mut r = Random(88172645463325252);
    let (mut left, mut right, mut buffer) = (vec![], vec![], vec![]);
    for _ in 0..n { push_view(&value(shape, &mut r), &mut left, &mut buffer); }
    for _ in 0..n { push_view(&value(shape, &mut r), &mut right, &mut buffer); }
    let m = n.div_ceil(8);
    let mut bytes = vec![0u8];
    let left_at = bytes.len();
    bytes.extend(&left);
    let right_at = bytes.len();
    bytes.extend(&right);
    let buffer_at = bytes.len();
    bytes.extend(&buffer);
    let bitmaps = bytes.len();
    for _ in 0..2 * m { bytes.push((r.next() >> 20) as u8 | (r.next() >> 20) as u8); }
    bytes[bitmaps + m] |= 1;
    let mut all_same = true;
    for fixed in [false, true] {
        for nullable in [false, true] {
            let none: &[u8] = &[];
            let l = Column { views: &bytes[left_at..right_at], bitmap: if nullable { &bytes[bitmaps..bitmaps + m] } else { none }, buffer: &bytes[buffer_at..bitmaps] };
            let o = Column { views: &bytes[right_at..buffer_at], bitmap: if nullable { &bytes[bitmaps + m..bitmaps + 2 * m] } else { none }, buffer: &bytes[buffer_at..bitmaps] };
            let (mut line, mut worst) = (String::new(), 0f64);
            for op in 0..6u8 {
                let mut out = vec![vec![0u8; m]; 2];
                let mut best = [f64::MAX; 2];
                for _ in 0..5 {
                    best[0] = best[0].min(time(|| plain(&l, &o, fixed, n, op, &mut out[0])));
                }
                // The time of one collection is a difference, which leaves the checks of the columns out.
                let mut ours = |again: usize| {
                    let mut t = f64::MAX;
                    for _ in 0..3 {
                        t = t.min(time(|| {
                            let answer = unsafe {
                                compare_views(bytes.as_ptr(), bytes.len(), buffer_at, bitmaps - buffer_at, left_at, bitmaps, right_at, bitmaps + m, nullable, n, op, fixed, again, out[1].as_mut_ptr(), m)
                            };
                            assert_eq!(answer, 0);
                        }));
                    }
                    t
                };
                best[1] = (ours(8) - ours(0)) / 8.0;
                for _ in 0..4 {
                    best[0] = best[0].min(time(|| plain(&l, &o, fixed, n, op, &mut out[0])));
                }
                all_same &= out[0] == out[1];
                worst = worst.max(best[1] / best[0]);
                line += &format!(" {:.2}/{:.2}={:.2}", best[1] * 1e3, best[0] * 1e3, best[1] / best[0]);
            }
            println!("{name} {} {}: worst {worst:.2};{line}", if fixed { "constant   " } else { "two columns" }, if nullable { "nullable" } else { "plain   " });
        }
    }
    all_same
}

fn main() {
    let n = 1_000_003;
    println!("{n} views; for Eq NotEq Gt Gte Lt Lte: ours/plain Rust loop in milliseconds = ratio");
    let same = measure("short          ", Shape::Short, n)
        & measure("long, distinct ", Shape::Distinct, n)
        & measure("long, shared   ", Shape::Shared, n)
        & measure("long, one byte ", Shape::Equal, n)
        & measure("mixed          ", Shape::Mixed, n);
    println!("{}", if same { "every result is the same on both sides" } else { "RESULTS DIFFER" });
    std::process::exit(if same { 0 } else { 1 });
}
