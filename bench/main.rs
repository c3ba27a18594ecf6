// Measures the collector over number columns against plain Rust loops that pack the same bits.
// Both sides read the same bytes at odd addresses, in the same run; the best of nine counts.
use std::time::Instant;

extern "C" {
    fn compare_numbers(
        bytes: *const u8, bytes_len: usize, ptype: u64,
        left: usize, left_bitmap: usize, right: usize, right_bitmap: usize,
        nullable: bool, len: usize, op: u8, fixed: bool,
        out: *mut u8, out_len: usize,
    ) -> u8;
}

trait Element: Copy {
    const WIDTH: usize;
    const PTYPE: u64;
    const NAME: &'static str;
    fn get(bytes: &[u8]) -> Self;
    fn lt(self, other: Self) -> bool;
    fn same(self, other: Self) -> bool;
    fn put(x: u64, out: &mut Vec<u8>);
}

macro_rules! integer {
    ($($t:ty, $code:expr, $name:expr);*) => {$(
        impl Element for $t {
            const WIDTH: usize = std::mem::size_of::<$t>();
            const PTYPE: u64 = $code;
            const NAME: &'static str = $name;
            #[inline(always)] fn get(bytes: &[u8]) -> $t { <$t>::from_le_bytes(bytes.try_into().unwrap()) }
            #[inline(always)] fn lt(self, other: $t) -> bool { self < other }
            #[inline(always)] fn same(self, other: $t) -> bool { self == other }
            fn put(x: u64, out: &mut Vec<u8>) { out.extend((x as $t).wrapping_sub(100 as $t).to_le_bytes()) }
        }
    )*};
}
integer!(u16, 1, "U16"; u64, 3, "U64"; i32, 6, "I32"; i64, 7, "I64");

impl Element for f64 {
    const WIDTH: usize = 8;
    const PTYPE: u64 = 10;
    const NAME: &'static str = "F64";
    #[inline(always)] fn get(bytes: &[u8]) -> f64 { f64::from_le_bytes(bytes.try_into().unwrap()) }
    #[inline(always)] fn lt(self, other: f64) -> bool { self.total_cmp(&other).is_lt() }
    #[inline(always)] fn same(self, other: f64) -> bool { self.to_bits() == other.to_bits() }
    fn put(x: u64, out: &mut Vec<u8>) { out.extend((x as f64 - 500.0).to_le_bytes()) }
}

// ---- the plain loop: row by row, nulls as options

#[inline(always)]
fn row<T: Element>(values: &[u8], bitmap: &[u8], i: usize) -> Option<T> {
    if bitmap.is_empty() || (bitmap[i / 8] >> (i % 8)) & 1 == 1 {
        Some(T::get(&values[T::WIDTH * i..T::WIDTH * i + T::WIDTH]))
    } else {
        None
    }
}

fn less<T: Element>(x: Option<T>, y: Option<T>) -> bool {
    match (x, y) { (_, None) => false, (None, Some(_)) => true, (Some(x), Some(y)) => x.lt(y) }
}

fn same<T: Element>(x: Option<T>, y: Option<T>) -> bool {
    match (x, y) { (None, None) => true, (Some(x), Some(y)) => x.same(y), _ => false }
}

#[inline(always)]
fn plain_by<T: Element>(c: &Columns, out: &mut [u8], f: impl Fn(Option<T>, Option<T>) -> bool) {
    let n = c.left.len() / T::WIDTH;
    for k in 0..n.div_ceil(8) {
        let mut byte = 0u8;
        for b in 0..8.min(n - 8 * k) {
            let i = 8 * k + b;
            let j = if c.fixed { 0 } else { i };
            byte |= (f(row(c.left, c.left_bitmap, i), row(c.right, c.right_bitmap, j)) as u8) << b;
        }
        out[k] = byte;
    }
}

#[inline(never)]
fn plain<T: Element>(c: &Columns, op: u8, out: &mut [u8]) {
    match op {
        0 => plain_by::<T>(c, out, same),
        1 => plain_by::<T>(c, out, |x, y| !same(x, y)),
        2 => plain_by::<T>(c, out, |x, y| less(y, x)),
        3 => plain_by::<T>(c, out, |x, y| !less(x, y)),
        4 => plain_by::<T>(c, out, less),
        _ => plain_by::<T>(c, out, |x, y| !less(y, x)),
    }
}

// ---- the branch-free loop: eight rows from exact chunks, validity a byte at a time, in two packings

#[derive(Clone, Copy)]
struct Columns<'a> {
    left: &'a [u8],
    left_bitmap: &'a [u8],
    right: &'a [u8],
    right_bitmap: &'a [u8],
    fixed: bool,
}

#[inline(always)]
fn pack<const MULTIPLY: bool>(f: impl Fn(usize) -> bool) -> u8 {
    if MULTIPLY {
        let mut t = [0u8; 8];
        for b in 0..8 { t[b] = f(b) as u8; }
        (u64::from_le_bytes(t).wrapping_mul(0x0102040810204080) >> 56) as u8
    } else {
        let mut byte = 0u8;
        for b in 0..8 { byte |= (f(b) as u8) << b; }
        byte
    }
}

#[inline(always)]
fn free_by<T: Element, const MULTIPLY: bool>(c: &Columns, out: &mut [u8], f: impl Fn(T, T) -> bool, g: impl Fn(u8, u8, u8) -> u8) {
    let w = T::WIDTH;
    let n = c.left.len() / w;
    let at = |bytes: &[u8], b: usize| T::get(&bytes[w * b..w * b + w]);
    let one = at(c.right, 0);
    let one_valid = if c.right_bitmap.is_empty() || c.right_bitmap[0] & 1 == 1 { 255 } else { 0 };
    let lefts = c.left.chunks_exact(8 * w);
    let left_rest = lefts.remainder();
    if c.fixed {
        if c.left_bitmap.is_empty() {
            for (a, o) in lefts.zip(out.iter_mut()) { *o = g(pack::<MULTIPLY>(|b| f(at(a, b), one)), 255, one_valid); }
        } else {
            for ((a, o), v) in lefts.zip(out.iter_mut()).zip(c.left_bitmap) { *o = g(pack::<MULTIPLY>(|b| f(at(a, b), one)), *v, one_valid); }
        }
    } else {
        let rights = c.right.chunks_exact(8 * w);
        if c.left_bitmap.is_empty() {
            for ((a, r), o) in lefts.zip(rights).zip(out.iter_mut()) { *o = g(pack::<MULTIPLY>(|b| f(at(a, b), at(r, b))), 255, 255); }
        } else {
            for ((((a, r), o), v), u) in lefts.zip(rights).zip(out.iter_mut()).zip(c.left_bitmap).zip(c.right_bitmap) {
                *o = g(pack::<MULTIPLY>(|b| f(at(a, b), at(r, b))), *v, *u);
            }
        }
    }
    if n % 8 > 0 {
        let start = n / 8 * 8;
        let mut byte = 0u8;
        for b in 0..n % 8 {
            let y = if c.fixed { one } else { at(c.right, start + b) };
            byte |= (f(at(left_rest, b), y) as u8) << b;
        }
        let v = *c.left_bitmap.get(n / 8).unwrap_or(&255);
        let u = if c.fixed { one_valid } else { *c.right_bitmap.get(n / 8).unwrap_or(&255) };
        out[n / 8] = g(byte, v, u) & ((1 << (n % 8)) - 1);
    }
}

#[inline(never)]
fn free<T: Element, const MULTIPLY: bool>(c: &Columns, op: u8, out: &mut [u8]) {
    match op {
        0 => free_by::<T, MULTIPLY>(c, out, |x, y| x.same(y), |e, a, b| !(a ^ b) & (!a | e)),
        1 => free_by::<T, MULTIPLY>(c, out, |x, y| x.same(y), |e, a, b| (a ^ b) | (a & !e)),
        2 => free_by::<T, MULTIPLY>(c, out, |x, y| y.lt(x), |e, a, b| a & (!b | e)),
        3 => free_by::<T, MULTIPLY>(c, out, |x, y| x.lt(y), |e, a, b| !(b & (!a | e))),
        4 => free_by::<T, MULTIPLY>(c, out, |x, y| x.lt(y), |e, a, b| b & (!a | e)),
        _ => free_by::<T, MULTIPLY>(c, out, |x, y| y.lt(x), |e, a, b| !(a & (!b | e))),
    }
}

fn time(mut f: impl FnMut()) -> f64 {
    let t = Instant::now();
    f();
    t.elapsed().as_secs_f64()
}

fn measure<T: Element>(n: usize) -> bool {
    let mut s = 88172645463325252u64;
    let mut random = || { s ^= s << 13; s ^= s >> 7; s ^= s << 17; s };
    let m = n.div_ceil(8);
    let mut bytes = vec![0u8];
    let left = bytes.len();
    for _ in 0..n { T::put(random() % 1000, &mut bytes); }
    let right = bytes.len();
    for _ in 0..n { T::put(random() % 1000, &mut bytes); }
    let left_bitmap = bytes.len();
    for _ in 0..2 * m { bytes.push((random() >> 20) as u8 | (random() >> 20) as u8); }
    let right_bitmap = left_bitmap + m;
    bytes[right_bitmap] |= 1;
    let mut all_same = true;
    for fixed in [false, true] {
        for nullable in [false, true] {
            let mut worst = 0f64;
            let mut line = String::new();
            for op in 0..6u8 {
                let none: &[u8] = &[];
                let c = Columns {
                    left: &bytes[left..left + n * T::WIDTH],
                    right: &bytes[right..right + n * T::WIDTH],
                    left_bitmap: if nullable { &bytes[left_bitmap..left_bitmap + m] } else { none },
                    right_bitmap: if nullable { &bytes[right_bitmap..right_bitmap + m] } else { none },
                    fixed,
                };
                let mut best = [f64::MAX; 4];
                let mut out = vec![vec![0u8; m]; 4];
                for _ in 0..9 {
                    best[0] = best[0].min(time(|| plain::<T>(&c, op, &mut out[0])));
                    best[1] = best[1].min(time(|| free::<T, false>(&c, op, &mut out[1])));
                    best[2] = best[2].min(time(|| free::<T, true>(&c, op, &mut out[2])));
                    best[3] = best[3].min(time(|| {
                        let o = &mut out[3];
                        let answer = unsafe {
                            compare_numbers(bytes.as_ptr(), bytes.len(), T::PTYPE, left, left_bitmap, right, right_bitmap, nullable, n, op, fixed, o.as_mut_ptr(), o.len())
                        };
                        assert_eq!(answer, 0);
                    }));
                }
                all_same &= out[0] == out[1] && out[0] == out[2] && out[0] == out[3];
                let rust = best[0].min(best[1]).min(best[2]);
                let ratio = best[3] / rust;
                worst = worst.max(ratio);
                line += &format!(" {:.2}/{:.2}={:.2}", best[3] * 1e3, rust * 1e3, ratio);
            }
            println!("{} {} {}: worst {:.2};{}", T::NAME, if fixed { "fixed row  " } else { "two columns" }, if nullable { "nullable" } else { "plain   " }, worst, line);
        }
    }
    all_same
}

fn main() {
    let n = 4_000_003;
    println!("{n} rows; for Eq NotEq Gt Gte Lt Lte: ours/Rust's best loop in milliseconds = ratio");
    let same = measure::<u64>(n) & measure::<i64>(n) & measure::<i32>(n) & measure::<u16>(n) & measure::<f64>(n);
    println!("{}", if same { "every result is the same on both sides" } else { "RESULTS DIFFER" });
}
