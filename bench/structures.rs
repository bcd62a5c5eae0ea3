//! Times the structures beside Rust's `BTreeMap`: see structures.sh.
use std::collections::BTreeMap;
use std::time::Instant;

unsafe extern "C" {
    fn vi_bench_tree(pages: *const u64, len: usize, finds: u32, unmaps: u32) -> u64;
    fn vi_bench_cache(leases: u32, looks: u32) -> u64;
    fn vi_bench_ring(rounds: u32) -> u64;
}

/// The seconds that the fastest of five runs takes.
fn fastest(mut work: impl FnMut() -> u64) -> f64 {
    let mut best = f64::MAX;
    for _ in 0..5 {
        let start = Instant::now();
        std::hint::black_box(work());
        best = best.min(start.elapsed().as_secs_f64());
    }
    best
}

fn tree(pages: &[u64], finds: u32, unmaps: u32) -> u64 {
    // SAFETY: the pointer and the length are those of a slice of fewer than 2^31 numbers.
    unsafe { vi_bench_tree(pages.as_ptr(), pages.len(), finds, unmaps) }
}

/// The same calls on a `BTreeMap` from first addresses to last addresses, targets and flags.
fn map(pages: &[u64], finds: u32, unmaps: u32) -> u64 {
    let mut map = BTreeMap::new();
    for page in pages {
        let first = page << 12;
        let met = map.range(..=first + 4095).next_back().is_some_and(|(_, m): (&u64, &(u64, u64, u32))| m.0 >= first);
        if !met {
            map.insert(first, (first + 4095, 0u64, 3u32));
        }
    }
    let mut sum = 0u64;
    for _ in 0..finds {
        for page in pages {
            let address = page << 12;
            if let Some((_, m)) = map.range(..=address).next_back() {
                if m.0 >= address {
                    sum = sum.wrapping_add(m.0);
                }
            }
        }
    }
    for _ in 0..unmaps {
        for page in pages {
            sum = sum.wrapping_add(u64::from(map.remove(&(page << 12)).is_some()));
        }
    }
    sum
}

/// The numbers below n in a random order, two apart.
fn shuffled(n: usize) -> Vec<u64> {
    let mut pages: Vec<u64> = (0..n as u64).map(|page| 2 * page).collect();
    let mut state = 1u64;
    for i in (1..n).rev() {
        state = state.wrapping_mul(6364136223846793005).wrapping_add(1442695040888963407);
        pages.swap(i, (state >> 33) as usize % (i + 1));
    }
    pages
}

fn table(name: &str, n: usize, finds: u32, run: fn(&[u64], u32, u32) -> u64) {
    let pages = shuffled(n);
    let per_call = 1e9 / n as f64;
    let built = fastest(|| run(&pages, 0, 0));
    let found = fastest(|| run(&pages, finds, 0)) - built;
    let unmapped = fastest(|| run(&pages, 0, 1)) - built;
    println!(
        "{name:<22} {n:>7} mappings: insert {:>6.0} ns, find {:>5.0} ns, unmap {:>6.0} ns",
        built * per_call,
        found * per_call / f64::from(finds),
        unmapped * per_call,
    );
}

fn main() {
    assert_eq!(tree(&shuffled(1000), 1, 1), map(&shuffled(1000), 1, 1));
    for (n, finds) in [(1_000, 1_000), (100_000, 10)] {
        table("vi_tree", n, finds, tree);
        table("BTreeMap", n, finds, map);
    }
    for leases in [8, 64] {
        let looks = 10_000_000;
        // SAFETY: numbers alone are passed.
        let time = fastest(|| unsafe { vi_bench_cache(leases, looks) });
        println!("vi_cache               {leases:>7} leases:   hit {:>6.1} ns", time * 1e9 / f64::from(looks));
    }
    let rounds = 1_000_000;
    // SAFETY: numbers alone are passed.
    let time = fastest(|| unsafe { vi_bench_ring(rounds) });
    println!("vi_vring                     one chain: add, pop, readable, push, collect {:>6.0} ns", time * 1e9 / f64::from(rounds));
}
