//! The sequence of `node_bench` on a plain hash map, in one thread.
//!
//! `hash_map_nodes COUNT MAKES` asks COUNT times for a node of a rising layer over two nodes drawn
//! from those below, then MAKES times for those again, and prints how long both took.
use std::collections::HashMap;
use std::env;
use std::time::Instant;

/// How many nodes of one variable are asked for.
const WIDTH: u64 = 1_000;

type Parts = (u32, u32, u32);

fn mixed(number: u64) -> u64 {
    let step = number.wrapping_mul(0x9e37_79b9_7f4a_7c15);
    let step = (step ^ (step >> 30)).wrapping_mul(0xbf58_476d_1ce4_e5b9);
    let step = (step ^ (step >> 27)).wrapping_mul(0x94d0_49bb_1331_11eb);
    step ^ (step >> 31)
}

fn draw(number: u64, count: usize) -> (usize, usize) {
    let random = mixed(number);
    let first = (random >> 32) as usize % count;
    let further = (random & 0xffff_ffff) as usize % (count - 1);
    (first, (first + 1 + further) % count)
}

#[derive(Default)]
struct Nodes {
    numbers: HashMap<Parts, u32>,
}

impl Nodes {
    fn make(&mut self, var: u32, lo: u32, hi: u32) -> u32 {
        if lo == hi {
            return lo;
        }
        let next = self.numbers.len() as u32 + 2;
        *self.numbers.entry((var, lo, hi)).or_insert(next)
    }
}

fn fill(nodes: &mut Nodes, count: u64) -> Vec<Parts> {
    let mut parts = Vec::new();
    let mut below = vec![0, 1];
    for layer in 0..4094 {
        let left = count - parts.len() as u64;
        if left == 0 {
            break;
        }
        let mut fresh = Vec::new();
        for _ in 0..left.min(WIDTH) {
            let (lo, hi) = draw(parts.len() as u64, below.len());
            let part = (4094 - layer, below[lo], below[hi]);
            fresh.push(nodes.make(part.0, part.1, part.2));
            parts.push(part);
        }
        below.extend_from_slice(&fresh);
    }
    parts
}

fn main() {
    let words: Vec<u64> = env::args().skip(1).map(|word| word.parse().expect("a number")).collect();
    let [count, makes] = words[..] else { panic!("COUNT MAKES") };
    let mut nodes = Nodes::default();
    let start = Instant::now();
    let parts = fill(&mut nodes, count);
    let making = start.elapsed().as_nanos();
    let start = Instant::now();
    let mut sum = 0u64;
    for turn in 0..makes {
        let part = parts[turn as usize % parts.len()];
        sum = sum.wrapping_add(u64::from(nodes.make(part.0, part.1, part.2)));
    }
    let asking = start.elapsed().as_nanos();
    let made = parts.len();
    println!("made {made} in {making} ns, asked again {makes} in {asking} ns (sum {sum})");
}
