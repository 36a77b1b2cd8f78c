//! The database of the work `database` of `benchmarks`, in plain Rust: the same operations, trees, roots and proofs, and nothing proved.
//! Reads one line, `database WORK KEYS [TIMES]`, and prints what `benchmarks` does. bench/ratios compiles it and measures it beside that.

use std::collections::{BTreeMap, BTreeSet};
use std::ops::Bound::{Excluded, Unbounded};

type Digest = [u8; 32];
type Key = [u8; 4];

/// How many operations have their bits in one chunk, of 32 bytes, and the height of a node over as many.
const WIDTH: usize = 256;
const HEIGHT: u32 = 8;

#[path = "sha256.rs"]
mod sha256;

fn hash(parts: &[&[u8]]) -> Digest {
    let mut hasher = sha256::Hasher::new();
    parts.iter().for_each(|part| hasher.update(part));
    hasher.finish()
}

fn be8(number: usize) -> [u8; 8] {
    (number as u64).to_be_bytes()
}

/// The position of the node over `2^height` leaves from `first` on.
fn position(first: usize, height: u32) -> usize {
    2 * first - first.count_ones() as usize + (2 << height) - 2
}

/// The peaks of the tree over so many leaves, as the first leaf and the height of each.
fn peaks(leaves: usize) -> impl DoubleEndedIterator<Item = (usize, u32)> + Clone {
    (0..usize::BITS).rev().filter(move |height| leaves >> height & 1 == 1).map(move |height| ((leaves >> height >> 1) << height << 1, height))
}

fn end_of((first, height): (usize, u32)) -> usize {
    first + (1 << height)
}

/// How many leading peaks end at or before the floor, up to the last that ends on a multiple of `width`.
fn inactive(leaves: usize, floor: usize, width: usize) -> usize {
    let ends = peaks(leaves).map(end_of).enumerate();
    ends.filter(|(_, end)| *end <= floor && end % width == 0).map(|(place, _)| place + 1).last().unwrap_or(0)
}

fn fold_left(items: impl Iterator<Item = Digest>) -> Option<Digest> {
    items.reduce(|left, right| hash(&[&left, &right]))
}

fn fold_right(items: impl DoubleEndedIterator<Item = Digest>) -> Option<Digest> {
    items.rev().reduce(|right, left| hash(&[&left, &right]))
}

fn root_of(leaves: usize, inactive: usize, front: Option<Digest>, rest: &[Digest]) -> Digest {
    let bag = fold_right(front.into_iter().chain(rest.iter().copied()).collect::<Vec<_>>().into_iter());
    hash(&[&[0, 1], &be8(leaves), &be8(inactive), bag.as_ref().map_or(&[], |it| it)])
}

fn node_over(first: usize, height: u32, left: &Digest, right: &Digest) -> Digest {
    hash(&[&be8(position(first, height)), left, right])
}

fn grafted(chunk: &[u8], inner: &Digest) -> Digest {
    if chunk.iter().any(|it| *it != 0) { hash(&[chunk, inner]) } else { *inner }
}

/// The snapshot of the last commit: nodes of the operations by position, nodes over chunks by height, and the roots.
#[derive(Default)]
struct Snapshot {
    leaves: usize,
    floor: usize,
    nodes: Vec<Digest>,
    chunks: Vec<Vec<Digest>>,
    ops_root: Digest,
    grafted_root: Digest,
    partial: Option<Digest>,
    root: Digest,
}

impl Snapshot {
    fn add(&mut self, operation: &[u8]) {
        let mut digest = hash(&[&be8(self.nodes.len()), operation]);
        self.nodes.push(digest);
        self.leaves += 1;
        for height in 1..=self.leaves.trailing_zeros() {
            let left = self.nodes[self.nodes.len() - (1 << height)];
            digest = hash(&[&be8(self.nodes.len()), &left, &digest]);
            self.nodes.push(digest);
        }
    }

    /// The digest of the view.
    fn node(&self, (first, height): (usize, u32)) -> Digest {
        match height.checked_sub(HEIGHT) {
            None => self.nodes[position(first, height)],
            Some(above) => self.chunks[above as usize][first >> height],
        }
    }

    /// Grafts chunks anew, and those that are complete since, and hashes the nodes over them.
    fn graft(&mut self, bits: &[u8], mut touched: BTreeSet<usize>) {
        let complete = self.leaves / WIDTH;
        if self.chunks.is_empty() {
            self.chunks.push(Vec::new());
        }
        touched.retain(|it| *it < complete);
        touched.extend(self.chunks[0].len()..complete);
        for index in &touched {
            let inner = &self.nodes[position(index * WIDTH, HEIGHT)];
            put_at(&mut self.chunks[0], *index, grafted(&bits[index * 32..][..32], inner));
        }
        for level in 0.. {
            let below = self.chunks[level].len();
            touched = touched.iter().map(|it| it / 2).filter(|it| 2 * it + 1 < below).collect();
            if touched.is_empty() {
                break;
            }
            if self.chunks.len() == level + 1 {
                self.chunks.push(Vec::new());
            }
            let height = HEIGHT + level as u32 + 1;
            for index in &touched {
                let digest = node_over(index << height, height, &self.chunks[level][2 * index], &self.chunks[level][2 * index + 1]);
                put_at(&mut self.chunks[level + 1], *index, digest);
            }
        }
    }

    fn roots(&mut self, bits: &[u8]) {
        let exact = inactive(self.leaves, self.floor, 1);
        let plain: Vec<_> = peaks(self.leaves).map(|(first, height)| self.nodes[position(first, height)]).collect();
        self.ops_root = root_of(self.leaves, exact, fold_left(plain[..exact].iter().copied()), &plain[exact..]);
        let aligned = inactive(self.leaves, self.floor, WIDTH);
        let view: Vec<_> = peaks(self.leaves).map(|it| self.node(it)).collect();
        self.grafted_root = root_of(self.leaves, aligned, fold_left(view[..aligned].iter().copied()), &view[aligned..]);
        let rest = self.leaves % WIDTH;
        self.partial = (rest > 0).then(|| hash(&[&bits[self.leaves / WIDTH * 32..][..32]]));
        self.root = canonical(&self.ops_root, &self.grafted_root, self.leaves, &self.partial);
    }
}

fn put_at(digests: &mut Vec<Digest>, index: usize, digest: Digest) {
    if index == digests.len() {
        digests.push(digest);
    } else {
        digests[index] = digest;
    }
}

fn canonical(ops_root: &Digest, grafted_root: &Digest, leaves: usize, partial: &Option<Digest>) -> Digest {
    match partial {
        Some(partial) => hash(&[ops_root, grafted_root, &be8(leaves % WIDTH), partial]),
        None => hash(&[ops_root, grafted_root]),
    }
}

/// A proof that an update stands at a location and is active.
struct Proof {
    location: usize,
    leaves: usize,
    inactive: usize,
    chunk: [u8; 32],
    digests: Vec<Digest>,
    partial: Option<Digest>,
    ops_root: Digest,
    next_key: Key,
}

#[derive(Default)]
struct Database {
    operations: Vec<[u8; 18]>,
    bits: Vec<u8>,
    active: BTreeMap<Key, (u64, usize)>,
    /// What the committed map had for the keys that changed since.
    before: BTreeMap<Key, Option<(u64, usize)>>,
    cleared: BTreeSet<usize>,
    snapshot: Snapshot,
    committed: usize,
}

fn update(key: Key, value: u64, next: Key) -> [u8; 18] {
    let mut operation = [0; 18];
    operation[0] = 0xd2;
    operation[1..5].copy_from_slice(&key);
    operation[5..13].copy_from_slice(&value.to_be_bytes());
    operation[13..17].copy_from_slice(&next);
    operation
}

impl Database {
    fn append(&mut self, operation: [u8; 18]) {
        let location = self.operations.len();
        if location % WIDTH == 0 {
            self.bits.extend([0; 32]);
        }
        self.bits[location / 8] |= 1 << (location % 8);
        self.operations.push(operation);
    }

    fn clear(&mut self, location: usize) {
        self.bits[location / 8] &= !(1 << (location % 8));
        if location < self.committed {
            self.cleared.insert(location / WIDTH);
        }
    }

    fn next_key(&self, key: Key) -> Key {
        let after = self.active.range((Excluded(key), Unbounded)).next();
        after.or(self.active.iter().next()).map_or(key, |(next, _)| *next)
    }

    fn write(&mut self, key: Key, value: u64) {
        let next = self.next_key(key);
        let old = self.active.insert(key, (value, self.operations.len()));
        self.before.entry(key).or_insert(old);
        if let Some((_, location)) = old {
            self.clear(location);
        }
        self.append(update(key, value, next));
    }

    fn put(&mut self, key: Key, value: u64) {
        let is_new = !self.active.contains_key(&key);
        let before = self.active.range(..key).next_back().or(self.active.iter().next_back()).map(|(it, (value, _))| (*it, *value));
        self.write(key, value);
        if let (true, Some((key, value))) = (is_new, before) {
            self.write(key, value);
        }
    }

    fn commit(&mut self) {
        let location = self.operations.len();
        if self.committed > 0 {
            self.clear(self.committed - 1);
        }
        let is_set = |it: &usize| self.bits[it / 8] >> (it % 8) & 1 == 1;
        let floor = (self.snapshot.floor..location).find(is_set).unwrap_or(location);
        let mut operation = [0; 18];
        operation[0] = 0xd3;
        operation[10..].copy_from_slice(&be8(floor));
        self.append(operation);
        self.snapshot.floor = floor;
        for operation in &self.operations[self.committed..] {
            self.snapshot.add(operation);
        }
        self.snapshot.graft(&self.bits, std::mem::take(&mut self.cleared));
        self.snapshot.roots(&self.bits);
        self.committed = self.operations.len();
        self.before.clear();
    }

    /// The value of an active key at the last commit, with its proof; no command came since.
    fn prove(&self, key: Key) -> Option<(u64, Proof)> {
        let (value, location) = *self.active.get(&key)?;
        let s = &self.snapshot;
        let inactive = inactive(s.leaves, s.floor, WIDTH);
        let all = peaks(s.leaves).enumerate();
        let before = all.clone().filter(|(_, it)| end_of(*it) <= location);
        let past = all.clone().filter(|(_, it)| it.0 > location);
        let mut digests = Vec::with_capacity(64);
        digests.extend(fold_left(before.clone().filter(|(place, _)| *place < inactive).map(|(_, it)| s.node(it))));
        digests.extend(before.filter(|(place, _)| *place >= inactive).map(|(_, it)| s.node(it)));
        digests.extend(past.clone().filter(|(place, _)| *place < inactive).map(|(_, it)| s.node(it)));
        digests.extend(fold_right(past.filter(|(place, _)| *place >= inactive).map(|(_, it)| s.node(it)).collect::<Vec<_>>().into_iter()));
        let (mut first, mut height) = peaks(s.leaves).find(|it| it.0 <= location && location < end_of(*it))?;
        let mut beside = Vec::with_capacity(64);
        while height > 0 {
            height -= 1;
            let right = first + (1 << height);
            let (own, other) = if location < right { (first, right) } else { (right, first) };
            beside.push((other, height));
            first = own;
        }
        beside.sort_unstable_by_key(|it| position(it.0, it.1));
        digests.extend(beside.into_iter().map(|it| s.node(it)));
        let chunk = self.bits[location / WIDTH * 32..][..32].try_into().unwrap();
        let (partial, ops_root, next_key) = (s.partial, s.ops_root, self.next_key(key));
        Some((value, Proof { location, leaves: s.leaves, inactive, chunk, digests, partial, ops_root, next_key }))
    }
}

impl Proof {
    fn verify(&self, key: Key, value: u64, root: &Digest) -> bool {
        self.is_active() && self.root(&update(key, value, self.next_key)).as_ref() == Some(root)
    }

    fn is_active(&self) -> bool {
        self.chunk[self.location % WIDTH / 8] >> (self.location % 8) & 1 == 1
    }

    fn root(&self, operation: &[u8]) -> Option<Digest> {
        let mut given = self.digests.iter().copied();
        let own = peaks(self.leaves).position(|it| it.0 <= self.location && self.location < end_of(it))?;
        let count = peaks(self.leaves).count();
        let fixed = self.inactive.min(own);
        let mut front = if fixed > 0 { Some(given.next()?) } else { None };
        let mut rest: Vec<Digest> = given.by_ref().take(own - fixed).collect();
        let after: Vec<Digest> = given.by_ref().take(self.inactive.saturating_sub(own + 1)).collect();
        let past = if self.inactive.max(own + 1) < count { Some(given.next()?) } else { None };
        let (mut first, top) = peaks(self.leaves).nth(own)?;
        let mut path = Vec::with_capacity(64);
        for height in (0..top).rev() {
            let right = first + (1 << height);
            let (it, other) = if self.location < right { (first, right) } else { (right, first) };
            path.push((other, height));
            first = it;
        }
        let mut sorted = path.clone();
        sorted.sort_unstable_by_key(|it| position(it.0, it.1));
        let beside: Vec<Digest> = given.by_ref().take(sorted.len()).collect();
        if beside.len() < sorted.len() || given.next().is_some() {
            return None;
        }
        let mut digest = hash(&[&be8(position(self.location, 0)), operation]);
        for height in 0..=top {
            if height > 0 {
                let (other, below) = path[(top - height) as usize];
                let place = sorted.binary_search_by_key(&position(other, below), |it| position(it.0, it.1)).ok()?;
                let first = self.location >> height << height;
                digest = if other > self.location { node_over(first, height, &digest, &beside[place]) } else { node_over(first, height, &beside[place], &digest) };
            }
            if height == HEIGHT {
                digest = grafted(&self.chunk, &digest);
            }
        }
        if own < self.inactive {
            front = fold_left(front.into_iter().chain([digest]).chain(after));
        } else {
            rest.push(digest);
        }
        rest.extend(past);
        if self.location / WIDTH == self.leaves / WIDTH && self.partial != Some(hash(&[&self.chunk])) {
            return None;
        }
        Some(canonical(&self.ops_root, &root_of(self.leaves, self.inactive, front, &rest), self.leaves, &self.partial))
    }
}

fn key(index: u32) -> Key {
    index.wrapping_mul(2_654_435_761).to_be_bytes()
}

fn hex(digest: &Digest) -> String {
    digest.iter().map(|it| format!("{it:02x}")).collect()
}

fn main() {
    let line = std::io::read_to_string(std::io::stdin()).unwrap();
    let words: Vec<&str> = line.split_whitespace().collect();
    let (work, count): (&str, u32) = (words[1], words[2].parse().unwrap());
    let times: u32 = words.get(3).map_or(0, |it| it.parse().unwrap());
    let mut database = Database::default();
    for index in 0..count {
        database.put(key(index), index.into());
    }
    if work != "put" {
        database.commit();
    }
    let indices = (0..times).map(|time| time.wrapping_mul(7919) % count);
    match work {
        "put" => println!("{}", database.active[&key(count - 1)].0),
        "commit" | "change" => {
            for (time, index) in indices.enumerate() {
                database.put(key(index), time as u64);
                database.commit();
            }
            println!("{}", hex(&database.snapshot.root));
        }
        "prove" => {
            let right = indices.filter(|it| database.prove(key(*it)).unwrap().0 == u64::from(*it)).count();
            println!("{right} right of {times}");
        }
        _ => {
            let (value, proof) = database.prove(key(count - 1)).unwrap();
            let accepted = (0..times).filter(|_| proof.verify(key(count - 1), value, &database.snapshot.root)).count();
            println!("accepted {accepted} times of {times}");
        }
    }
}
