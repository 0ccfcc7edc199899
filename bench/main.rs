// Times the proved transform kernel beside straightforward Rust, the fastest unverified Rust here, and NTL.
// Every variant is held to the same answers first. A number is the least of many runs, in microseconds.
use std::time::Instant;

const N: usize = 1024;
const Q: u32 = 2013265921;

extern "C" {
    fn proved_turn(degree: u32, modulus: u32, root: u32, words: *mut u32, words_len: usize, scratch: *mut u32, scratch_len: usize, times: usize) -> u32;
    fn proved_back(degree: u32, modulus: u32, root: u32, words: *mut u32, words_len: usize, scratch: *mut u32, scratch_len: usize, times: usize) -> u32;
    fn proved_fold(degree: u32, modulus: u32, root: u32, acc: *mut u32, acc_len: usize, left: *const u32, left_len: usize, right: *const u32, right_len: usize, times: usize) -> u32;
}

#[cfg(ntl)]
extern "C" {
    fn ntl_product(q: u32, a: *const u32, b: *const u32, c: *mut u32, n: usize, times: usize);
}

fn power(mut base: u64, mut e: u64, q: u64) -> u64 {
    let mut r = 1;
    while e > 0 {
        if e & 1 == 1 {
            r = r * base % q;
        }
        base = base * base % q;
        e >>= 1;
    }
    r
}

fn mirror(bits: u32, b: usize) -> usize {
    b.reverse_bits() >> (usize::BITS - bits)
}

// ---- straightforward: in place, u64 and %
struct Simple {
    q: u64,
    roots: Vec<u64>,
    inverses: Vec<u64>,
    nth: u64,
}

impl Simple {
    fn new(n: usize, q: u32, psi: u32) -> Self {
        let (q, psi) = (q as u64, psi as u64);
        let bits = n.trailing_zeros();
        let roots: Vec<u64> = (0..n).map(|i| power(psi, mirror(bits, i) as u64, q)).collect();
        let inverses = roots.iter().map(|r| power(*r, q - 2, q)).collect();
        Simple { q, roots, inverses, nth: power(n as u64, q - 2, q) }
    }

    fn turn(&self, a: &mut [u32]) {
        let (n, q) = (a.len(), self.q);
        let mut t = n;
        let mut m = 1;
        while m < n {
            t /= 2;
            for i in 0..m {
                let w = self.roots[m + i];
                for j in 2 * i * t..2 * i * t + t {
                    let u = a[j] as u64;
                    let v = a[j + t] as u64 * w % q;
                    a[j] = ((u + v) % q) as u32;
                    a[j + t] = ((u + q - v) % q) as u32;
                }
            }
            m *= 2;
        }
    }

    fn back(&self, a: &mut [u32]) {
        let (n, q) = (a.len(), self.q);
        let mut t = 1;
        let mut m = n;
        while m > 1 {
            m /= 2;
            for i in 0..m {
                let w = self.inverses[m + i];
                for j in 2 * i * t..2 * i * t + t {
                    let u = a[j] as u64;
                    let v = a[j + t] as u64;
                    a[j] = ((u + v) % q) as u32;
                    a[j + t] = ((u + q - v) * w % q) as u32;
                }
            }
            t *= 2;
        }
        for x in a.iter_mut() {
            *x = (*x as u64 * self.nth % q) as u32;
        }
    }

    fn fold(&self, acc: &mut [u32], a: &[u32], b: &[u32]) {
        for i in 0..acc.len() {
            acc[i] = ((acc[i] as u64 + a[i] as u64 * b[i] as u64) % self.q) as u32;
        }
    }
}

// ---- the fastest here: constant geometry between two buffers, Shoup and Barrett, left to the vectoriser
struct Fast {
    q: u32,
    mu: u64,
    bits: u32,
    nth: (u32, u32),
    rows: Vec<(Vec<u32>, Vec<u32>)>,
    inverse_rows: Vec<(Vec<u32>, Vec<u32>)>,
    spare: Vec<u32>,
}

fn sharp(w: u32, q: u32) -> u32 {
    (((w as u64) << 32) / q as u64) as u32
}

#[inline(always)]
fn once(x: u32, q: u32) -> u32 {
    let less = x.wrapping_sub(q);
    if cfg!(target_feature = "sse4.1") {
        x.min(less)
    } else if (less as i32) < 0 {
        x
    } else {
        less
    }
}

#[inline(always)]
fn subtract(u: u32, v: u32, q: u32) -> u32 {
    let less = u.wrapping_sub(v);
    if cfg!(target_feature = "sse4.1") {
        less.min(less.wrapping_add(q))
    } else if (less as i32) < 0 {
        less.wrapping_add(q)
    } else {
        less
    }
}

#[inline(always)]
fn shoup(x: u32, w: u32, ws: u32, q: u32) -> u32 {
    let h = ((x as u64 * ws as u64) >> 32) as u32;
    once(x.wrapping_mul(w).wrapping_sub(h.wrapping_mul(q)), q)
}

impl Fast {
    fn new(n: usize, q: u32, psi: u32) -> Self {
        let log = n.trailing_zeros();
        let half = n / 2;
        let row = |s: u32, inverse: bool| {
            let w: Vec<u32> = (0..half)
                .map(|j| {
                    let e = (1u64 << (log - 1 - s)) * (2 * mirror(s.max(1), j % (1 << s)) as u64 * (s > 0) as u64 + 1);
                    let r = power(psi as u64, e, q as u64);
                    (if inverse { power(r, q as u64 - 2, q as u64) } else { r }) as u32
                })
                .collect();
            let ws = w.iter().map(|x| sharp(*x, q)).collect();
            (w, ws)
        };
        let bits = 32 - q.leading_zeros();
        let nth = power(n as u64, q as u64 - 2, q as u64) as u32;
        Fast {
            q,
            mu: (1u64 << (2 * bits)) / q as u64,
            bits,
            nth: (nth, sharp(nth, q)),
            rows: (0..log).map(|s| row(s, false)).collect(),
            inverse_rows: (0..log).map(|s| row(s, true)).collect(),
            spare: vec![0; n],
        }
    }

    fn stage(x: &[u32], y: &mut [u32], w: &[u32], ws: &[u32], q: u32) {
        let h = w.len();
        let (low, high) = x.split_at(h);
        let (high, ws, low) = (&high[..h], &ws[..h], &low[..h]);
        for (j, pair) in y.chunks_exact_mut(2).enumerate().take(h) {
            let u = low[j];
            let v = shoup(high[j], w[j], ws[j], q);
            pair[0] = once(u + v, q);
            pair[1] = subtract(u, v, q);
        }
    }

    fn unstage(y: &[u32], x: &mut [u32], w: &[u32], ws: &[u32], q: u32) {
        let h = w.len();
        let (low, high) = x.split_at_mut(h);
        let (high, ws) = (&mut high[..h], &ws[..h]);
        for (j, pair) in y.chunks_exact(2).enumerate().take(h) {
            let (u, v) = (pair[0], pair[1]);
            low[j] = once(u + v, q);
            high[j] = shoup(u + q - v, w[j], ws[j], q);
        }
    }

    fn turn(&mut self, a: &mut [u32]) {
        for (s, (w, ws)) in self.rows.iter().enumerate() {
            if s % 2 == 0 {
                Self::stage(a, &mut self.spare, w, ws, self.q);
            } else {
                Self::stage(&self.spare, a, w, ws, self.q);
            }
        }
        if self.rows.len() % 2 == 1 {
            a.copy_from_slice(&self.spare);
        }
    }

    fn back(&mut self, a: &mut [u32]) {
        for (s, (w, ws)) in self.inverse_rows.iter().rev().enumerate() {
            if s % 2 == 0 {
                Self::unstage(a, &mut self.spare, w, ws, self.q);
            } else {
                Self::unstage(&self.spare, a, w, ws, self.q);
            }
        }
        if self.inverse_rows.len() % 2 == 1 {
            a.copy_from_slice(&self.spare);
        }
        for x in a.iter_mut() {
            *x = shoup(*x, self.nth.0, self.nth.1, self.q);
        }
    }

    fn fold(&self, acc: &mut [u32], a: &[u32], b: &[u32]) {
        let (q, mu, bits) = (self.q as u64, self.mu as u32, self.bits);
        let n = acc.len();
        let (a, b) = (&a[..n], &b[..n]);
        for i in 0..n {
            let t = a[i] as u64 * b[i] as u64;
            let guess = (((t >> (bits - 1)) as u32 as u64 * mu as u64) >> (bits + 1)) as u32;
            let mut r = t - guess as u64 * q;
            let s = r.wrapping_sub(q);
            r = if (s as i64) < 0 { r } else { s };
            let s = r.wrapping_sub(q);
            r = if (s as i64) < 0 { r } else { s };
            acc[i] = once(acc[i] + r as u32, self.q);
        }
    }
}

// The least time of one call, of many runs that each make `times` calls.
fn least<F: FnMut(usize)>(times: usize, mut f: F) -> f64 {
    let mut best = f64::MAX;
    for _ in 0..60 {
        let start = Instant::now();
        f(times);
        best = best.min(start.elapsed().as_secs_f64() * 1e6 / times as f64);
    }
    best
}

fn words(n: usize, q: u32, mut seed: u64) -> Vec<u32> {
    (0..n)
        .map(|_| {
            seed = seed.wrapping_mul(6364136223846793005).wrapping_add(1442695040888963407);
            ((seed >> 32) % q as u64) as u32
        })
        .collect()
}

fn schoolbook(a: &[u32], b: &[u32], q: u32) -> Vec<u32> {
    let (n, q) = (a.len(), q as u64);
    let mut c = vec![0u64; n];
    for i in 0..n {
        for j in 0..n {
            let t = a[i] as u64 * b[j] as u64 % q;
            let k = (i + j) % n;
            c[k] = if i + j < n { (c[k] + t) % q } else { (c[k] + q - t) % q };
        }
    }
    c.iter().map(|x| *x as u32).collect()
}

struct Proved(u32, u32, u32);

impl Proved {
    fn turn(&self, a: &mut [u32], s: &mut [u32], times: usize) {
        assert_eq!(unsafe { proved_turn(self.0, self.1, self.2, a.as_mut_ptr(), a.len(), s.as_mut_ptr(), s.len(), times) }, 0);
    }
    fn back(&self, a: &mut [u32], s: &mut [u32], times: usize) {
        assert_eq!(unsafe { proved_back(self.0, self.1, self.2, a.as_mut_ptr(), a.len(), s.as_mut_ptr(), s.len(), times) }, 0);
    }
    fn fold(&self, c: &mut [u32], a: &[u32], b: &[u32], times: usize) {
        let r = unsafe { proved_fold(self.0, self.1, self.2, c.as_mut_ptr(), c.len(), a.as_ptr(), a.len(), b.as_ptr(), b.len(), times) };
        assert_eq!(r, 0);
    }
}

// The proved kernel against direct evaluation and the schoolbook product, at several rings and at words of q and above.
fn agree(n: usize, q: u32, psi: u32) {
    let k = Proved(n as u32, q, psi);
    let bits = n.trailing_zeros();
    let (a, b) = (words(n, q, 7), words(n, q, 8));
    let mut high = a.clone();
    for (i, x) in high.iter_mut().enumerate() {
        if i % 3 == 0 && *x as u64 + q as u64 <= u32::MAX as u64 {
            *x += q;
        }
    }
    let mut scratch = vec![5; n];
    let (mut fa, mut fb, mut fh) = (a.clone(), b.clone(), high.clone());
    k.turn(&mut fa, &mut scratch, 1);
    k.turn(&mut fb, &mut scratch, 1);
    k.turn(&mut fh, &mut scratch, 1);
    assert_eq!(fa, fh);
    assert!(scratch.iter().all(|x| *x == 0));
    for place in 0..n {
        let z = power(psi as u64, 2 * mirror(bits, place) as u64 + 1, q as u64);
        let value = a.iter().rev().fold(0u64, |v, c| (v * z + *c as u64) % q as u64);
        assert_eq!(fa[place] as u64, value);
    }
    let mut acc = vec![0; n];
    k.fold(&mut acc, &fa, &fb, 1);
    k.back(&mut acc, &mut scratch, 1);
    assert_eq!(acc, schoolbook(&a, &b, q));
    let mut same = fa.clone();
    k.back(&mut same, &mut scratch, 1);
    assert_eq!(same, a);
}

fn main() {
    agree(4, 17, 2);
    agree(16, 257 * 97, power_of_order(16, 257 * 97));
    for n in [8, 64, 512, 1024] {
        agree(n, Q, power(31, (Q as u64 - 1) / (2 * n as u64), Q as u64) as u32);
    }
    let psi = power(31, (Q as u64 - 1) / (2 * N as u64), Q as u64) as u32;
    let k = Proved(N as u32, Q, psi);
    let simple = Simple::new(N, Q, psi);
    let mut fast = Fast::new(N, Q, psi);
    let (a, b) = (words(N, Q, 1), words(N, Q, 2));
    let mut scratch = vec![0; N];
    // the same answers
    let expected = schoolbook(&a, &b, Q);
    let (mut x, mut y, mut z) = (a.clone(), b.clone(), vec![0; N]);
    simple.turn(&mut x);
    simple.turn(&mut y);
    simple.fold(&mut z, &x, &y);
    simple.back(&mut z);
    assert_eq!(z, expected);
    let (mut x, mut y, mut z) = (a.clone(), b.clone(), vec![0; N]);
    fast.turn(&mut x);
    fast.turn(&mut y);
    fast.fold(&mut z, &x, &y);
    fast.back(&mut z);
    assert_eq!(z, expected);
    // times
    let times = 500;
    let mut w = a.clone();
    let turns = [
        least(times, |t| k.turn(&mut w, &mut scratch, t)),
        least(times, |t| (0..t).for_each(|_| simple.turn(&mut w))),
        least(times, |t| (0..t).for_each(|_| fast.turn(&mut w))),
    ];
    let backs = [
        least(times, |t| k.back(&mut w, &mut scratch, t)),
        least(times, |t| (0..t).for_each(|_| simple.back(&mut w))),
        least(times, |t| (0..t).for_each(|_| fast.back(&mut w))),
    ];
    let folds = [
        least(times, |t| k.fold(&mut w, &a, &b, t)),
        least(times, |t| (0..t).for_each(|_| simple.fold(&mut w, &a, &b))),
        least(times, |t| (0..t).for_each(|_| fast.fold(&mut w, &a, &b))),
    ];
    println!("N = {N}, Q = {Q}, microseconds, least of 60 runs of {times} calls");
    println!("{:10}{:>10}{:>10}{:>10}{:>12}{:>12}", "", "proved", "simple", "fast", "simple/pr.", "proved/fast");
    let mut products = [0.0; 3];
    for (name, t) in [("turn", turns), ("fold", folds), ("back", backs)] {
        println!("{name:10}{:>10.2}{:>10.2}{:>10.2}{:>12.2}{:>12.2}", t[0], t[1], t[2], t[1] / t[0], t[0] / t[2]);
        for i in 0..3 {
            products[i] += if name == "turn" { 2.0 * t[i] } else { t[i] };
        }
    }
    let p = products;
    println!("{:10}{:>10.2}{:>10.2}{:>10.2}{:>12.2}{:>12.2}", "product", p[0], p[1], p[2], p[1] / p[0], p[0] / p[2]);
    #[cfg(ntl)]
    {
        let mut c = vec![0; N];
        unsafe { ntl_product(Q, a.as_ptr(), b.as_ptr(), c.as_mut_ptr(), N, 1) };
        assert_eq!(c, expected);
        let t = least(100, |t| unsafe { ntl_product(Q, a.as_ptr(), b.as_ptr(), c.as_mut_ptr(), N, t) });
        println!("{:10}{:>10.2}   NTL zz_pX, NTL / proved {:.2}", "product", t, t / p[0]);
    }
}

// A number whose power n is -1 modulo a small composite q, found by trying.
fn power_of_order(n: u64, q: u32) -> u32 {
    (2..q).find(|g| power(*g as u64, n, q as u64) == q as u64 - 1).expect("a root")
}
