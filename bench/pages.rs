// What look-ups, changes, batches and walks cost in a BTreeMap, in nanoseconds: the least of many short runs.
use std::collections::BTreeMap;
use std::sync::Arc;
use std::time::Instant;
#[derive(Clone, Copy, PartialEq, Eq, PartialOrd, Ord)]
struct Key {
    entity: u8,
    version: u128,
    id: u128,
    second: u128,
}
fn next(seed: u64) -> u64 {
    seed.wrapping_mul(6364136223846793005)
        .wrapping_add(1442695040888963407)
}
fn key(i: u64) -> Key {
    let x = next(next(i.wrapping_mul(0x9E3779B97F4A7C15)));
    Key {
        entity: (x >> 60) as u8,
        version: 0,
        id: x as u128,
        second: 0,
    }
}
fn pick(seed: u64, n: u64) -> u64 {
    (seed >> 33) % n
}
fn measure(n: u64) {
    let mut map = BTreeMap::new();
    for i in 0..n {
        map.insert(key(i), Arc::new(i));
    }
    let (mut get, mut set, mut batch, mut walk) = (u128::MAX, u128::MAX, u128::MAX, u128::MAX);
    let mut seed = 7;
    let mut sum = 0u64;
    for _ in 0..400 {
        let s = Instant::now();
        for _ in 0..100 {
            seed = next(seed);
            if let Some(v) = map.get(&key(pick(seed, n))) {
                sum = sum.wrapping_add(**v);
            }
        }
        get = get.min(s.elapsed().as_nanos() / 100);
    }
    let mut seed = 9;
    for _ in 0..400 {
        let s = Instant::now();
        for _ in 0..50 {
            seed = next(seed);
            map.insert(key(pick(seed, n)), Arc::new(seed));
        }
        set = set.min(s.elapsed().as_nanos() / 50);
    }
    for r in 0..40 {
        let mut changes: Vec<(Key, Option<Arc<u64>>)> = (0..1000)
            .map(|i| {
                seed = next(seed);
                (
                    key(pick(seed, n)),
                    if i % 4 == 0 && r % 2 == 0 {
                        None
                    } else {
                        Some(Arc::new(seed))
                    },
                )
            })
            .collect();
        changes.sort_by(|a, b| a.0.cmp(&b.0));
        changes.dedup_by(|a, b| a.0 == b.0);
        let s = Instant::now();
        for (k, v) in &changes {
            match v {
                Some(v) => {
                    map.insert(*k, v.clone());
                }
                None => {
                    map.remove(k);
                }
            }
        }
        batch = batch.min(s.elapsed().as_nanos());
    }
    for _ in 0..20 {
        let s = Instant::now();
        for (_, v) in &map {
            sum = sum.wrapping_add(**v);
        }
        walk = walk.min(s.elapsed().as_nanos());
    }
    println!(
        "n {n}: get {get}, set {set}, batch {batch}, walk {walk} ({})",
        sum % 2
    );
}
fn main() {
    for n in [1000, 10000, 200000] {
        measure(n)
    }
}
