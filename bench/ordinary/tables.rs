//! The new and the tried table, with their order, collisions and picks.

use std::collections::BTreeMap;

use arrayvec::ArrayVec;
use indexmap::IndexMap;
use slab::Slab;

use crate::address::{Address, Class, Peer};
use crate::message::Entry;
use crate::places::{Places, NEW_BUCKETS, SLOTS, TRIED_BUCKETS};
use crate::text::Words;

const MINUTE: i64 = 60;
const HOUR: i64 = 3600;
const DAY: i64 = 86_400;
const ONE: u64 = 1 << 30;
const LARGEST_FACTOR: u64 = 1 << 60;
const MAX_COLLISIONS: usize = 10;
const MAX_FAILURES: u32 = 2_147_483_647;

pub struct Record {
    pub number: u64,
    pub peer: Peer,
    pub source: Address,
    pub time: u32,
    pub services: u64,
    pub success: u32,
    pub last_try: u32,
    pub last_counted_try: u32,
    pub failures: u32,
    pub is_tried: bool,
    /// The buckets of the new table that the record is in, rising.
    pub buckets: ArrayVec<u16, 8>,
}

impl Record {
    pub fn new(peer: Peer, source: Address, time: u32, services: u64) -> Record {
        Record {
            number: 0,
            peer,
            source,
            time,
            services,
            success: 0,
            last_try: 0,
            last_counted_try: 0,
            failures: 0,
            is_tried: false,
            buckets: ArrayVec::new(),
        }
    }

    fn is_terrible(&self, now: u32) -> bool {
        let since = |time: u32| i64::from(now) - i64::from(time);
        since(self.last_try) > MINUTE
            && (since(self.time) < -10 * MINUTE
                || since(self.time) > 30 * DAY
                || self.failures >= 3 && self.success == 0
                || self.failures >= 10 && since(self.success) > 7 * DAY)
    }

    /// The chance to be accepted, of 2^30.
    fn chance(&self, now: u32) -> u64 {
        let power = self.failures.min(8);
        let chance = (u128::from(ONE) * 33u128.pow(power) / 50u128.pow(power)) as u64;
        if i64::from(now) - i64::from(self.last_try) < 10 * MINUTE {
            chance / 100
        } else {
            chance
        }
    }
}

/// Which records a pick takes.
pub enum Filter<C> {
    All,
    Only(C),
}

pub enum Picked<'a> {
    One(&'a Record),
    Nothing,
    Exhausted,
}

/// A table of buckets with 64 slots each, and the occupied slots of each as bits.
struct Grid {
    slots: Vec<u32>,
    occupied: Vec<u64>,
}

const FREE: u32 = u32::MAX;

impl Grid {
    fn new(buckets: usize) -> Grid {
        Grid { slots: vec![FREE; buckets * SLOTS], occupied: vec![0; buckets] }
    }

    fn get(&self, bucket: usize, slot: usize) -> Option<usize> {
        let id = self.slots[bucket * SLOTS + slot];
        (id != FREE).then_some(id as usize)
    }

    fn set(&mut self, bucket: usize, slot: usize, id: Option<usize>) {
        self.slots[bucket * SLOTS + slot] = id.map_or(FREE, |id| id as u32);
        match id {
            Some(_) => self.occupied[bucket] |= 1 << slot,
            None => self.occupied[bucket] &= !(1 << slot),
        }
    }
}

pub struct Tables {
    pub places: Places,
    records: Slab<Record>,
    /// Each peer with the id of its record, in the order of the records.
    order: IndexMap<Peer, usize>,
    new: Grid,
    tried: Grid,
    tried_count: usize,
    /// The numbers of newcomers, with their peers.
    pub collisions: BTreeMap<u64, Peer>,
    next_number: u64,
    last_good: u32,
}

impl Tables {
    pub fn new(places: Places) -> Tables {
        Tables {
            places,
            records: Slab::new(),
            order: IndexMap::new(),
            new: Grid::new(NEW_BUCKETS),
            tried: Grid::new(TRIED_BUCKETS),
            tried_count: 0,
            collisions: BTreeMap::new(),
            next_number: 0,
            last_good: 1,
        }
    }

    pub fn reserve(&mut self, records: usize) {
        self.records.reserve(records);
        self.order.reserve(records);
    }

    pub fn len(&self) -> usize {
        self.order.len()
    }

    /// The numbers of records in the new and in the tried table.
    pub fn counts(&self) -> (usize, usize) {
        (self.len() - self.tried_count, self.tried_count)
    }

    pub fn find(&self, peer: &Peer) -> Option<&Record> {
        self.order.get(peer).map(|&id| &self.records[id])
    }

    pub fn find_mut(&mut self, peer: &Peer) -> Option<&mut Record> {
        self.order.get(peer).map(|&id| &mut self.records[id])
    }

    /// All records by their numbers.
    pub fn by_number(&self) -> Vec<(usize, &Record)> {
        let mut records: Vec<(usize, &Record)> = self.records.iter().collect();
        records.sort_unstable_by_key(|(_, record)| record.number);
        records
    }

    /// The ids in a bucket of the new table, by slot.
    pub fn bucket(&self, bucket: usize) -> impl Iterator<Item = usize> + '_ {
        let mut left = self.new.occupied[bucket];
        std::iter::from_fn(move || {
            let slot = left.trailing_zeros() as usize;
            left &= left.wrapping_sub(1);
            (slot < SLOTS).then(|| self.new.slots[bucket * SLOTS + slot] as usize)
        })
    }

    fn append(&mut self, mut record: Record) -> usize {
        record.number = self.next_number;
        self.next_number += 1;
        let peer = record.peer;
        let id = self.records.insert(record);
        self.order.insert(peer, id);
        id
    }

    fn delete(&mut self, id: usize) {
        let record = self.records.remove(id);
        self.order.swap_remove(&record.peer);
    }

    fn occupy(&mut self, id: usize, bucket: usize, slot: usize) {
        self.new.set(bucket, slot, Some(id));
        let buckets = &mut self.records[id].buckets;
        let at = buckets.partition_point(|&other| usize::from(other) < bucket);
        buckets.insert(at, bucket as u16);
    }

    /// Takes its slot of the new table from the occupant, and deletes it if it has no other.
    fn clear(&mut self, bucket: usize, slot: usize) {
        if let Some(id) = self.new.get(bucket, slot) {
            self.new.set(bucket, slot, None);
            let buckets = &mut self.records[id].buckets;
            buckets.retain(|&mut other| usize::from(other) != bucket);
            if buckets.is_empty() {
                self.delete(id);
            }
        }
    }

    /// Takes an entry of a message; whether it got a slot.
    pub fn add(&mut self, entry: &Entry, source: &Address, word: u64, now: u32) -> bool {
        let Some(address) = entry.address.filter(Address::is_routable) else {
            return false;
        };
        let peer = Peer { address, port: entry.port };
        let fits = 100_000_000 < entry.time && i64::from(entry.time) <= i64::from(now) + 10 * MINUTE;
        let time = if fits { entry.time } else { now.saturating_sub(5 * DAY as u32) };
        let penalty = if address == *source { 0 } else { 2 * HOUR as u32 };
        let (id, is_new) = match self.order.get(&peer) {
            Some(&id) => (id, false),
            None => {
                let record = Record::new(peer, *source, time.saturating_sub(penalty), entry.services);
                (self.append(record), true)
            }
        };
        if !is_new && !refreshed(&mut self.records[id], time, entry.services, penalty, word, now) {
            return false;
        }
        let bucket = self.places.new_bucket(&peer, source);
        let slot = self.places.new_slot(bucket, &peer);
        if let Some(occupant) = self.new.get(bucket, slot) {
            if occupant == id {
                return false;
            }
            let occupant = &self.records[occupant];
            if !occupant.is_terrible(now) && (!is_new || occupant.buckets.len() == 1) {
                if is_new {
                    self.delete(id);
                }
                return false;
            }
            self.clear(bucket, slot);
        }
        self.occupy(id, bucket, slot);
        true
    }

    pub fn attempt(&mut self, peer: &Peer, counts: bool, now: u32) -> bool {
        let last_good = self.last_good;
        let Some(record) = self.find_mut(peer) else {
            return false;
        };
        record.last_try = now;
        if counts && record.last_counted_try < last_good {
            record.last_counted_try = now;
            record.failures = (record.failures + 1).min(MAX_FAILURES);
        }
        true
    }

    pub fn connected(&mut self, peer: &Peer, now: u32) -> bool {
        let Some(record) = self.find_mut(peer) else {
            return false;
        };
        if i64::from(now) - i64::from(record.time) > 20 * MINUTE {
            record.time = now;
        }
        true
    }

    /// The peer was reached; the word of the reply.
    pub fn good(&mut self, peer: &Peer, test: bool, now: u32) -> &'static str {
        self.last_good = now;
        match self.order.get(peer) {
            None => "unknown",
            Some(&id) => self.succeeded(id, test, now),
        }
    }

    fn succeeded(&mut self, id: usize, test: bool, now: u32) -> &'static str {
        let record = &mut self.records[id];
        record.success = now;
        record.last_try = now;
        record.failures = 0;
        if record.is_tried {
            return "already";
        }
        let (number, peer) = (record.number, record.peer);
        let (bucket, slot) = self.places.tried_place(&peer);
        if test && self.tried.get(bucket, slot).is_some() {
            if self.collisions.len() < MAX_COLLISIONS {
                self.collisions.insert(number, peer);
            }
            return "clash";
        }
        self.move_to_tried(id, bucket, slot);
        "moved"
    }

    fn move_to_tried(&mut self, id: usize, bucket: usize, slot: usize) {
        let record = &mut self.records[id];
        let peer = record.peer;
        for own in std::mem::take(&mut record.buckets) {
            let own = usize::from(own);
            self.new.set(own, self.places.new_slot(own, &peer), None);
        }
        if let Some(occupant) = self.tried.get(bucket, slot) {
            let record = &mut self.records[occupant];
            record.is_tried = false;
            self.tried_count -= 1;
            let own = self.places.new_bucket(&record.peer, &record.source);
            let own_slot = self.places.new_slot(own, &record.peer);
            self.clear(own, own_slot);
            self.occupy(occupant, own, own_slot);
        }
        self.records[id].is_tried = true;
        self.tried_count += 1;
        self.tried.set(bucket, slot, Some(id));
    }

    /// The id of the record that a collision is of, unless it was deleted.
    fn newcomer(&self, number: u64, peer: &Peer) -> Option<usize> {
        self.order.get(peer).copied().filter(|&id| self.records[id].number == number)
    }

    /// Decides on the collisions; how many were erased, moved and kept.
    pub fn resolve(&mut self, now: u32) -> (u32, u32, u32) {
        let (mut erased, mut moved, mut kept) = (0, 0, 0);
        for (number, peer) in self.collisions.clone() {
            let newcomer = self.newcomer(number, &peer);
            match newcomer.map(|id| self.makes_way(id, now)) {
                None | Some(Decision::Erase) => {
                    erased += 1;
                    self.collisions.remove(&number);
                }
                Some(Decision::Keep) => kept += 1,
                Some(Decision::Move) => {
                    moved += 1;
                    self.collisions.remove(&number);
                    self.last_good = now;
                    self.succeeded(newcomer.expect("it was found"), false, now);
                }
            }
        }
        (erased, moved, kept)
    }

    fn makes_way(&self, newcomer: usize, now: u32) -> Decision {
        let since = |time: u32| i64::from(now) - i64::from(time);
        let newcomer = &self.records[newcomer];
        let Some(occupant) = self.tried_occupant(&newcomer.peer) else {
            return Decision::Move;
        };
        if since(occupant.success) < 4 * HOUR {
            Decision::Erase
        } else if since(occupant.last_try) < 4 * HOUR {
            if since(occupant.last_try) > MINUTE {
                Decision::Move
            } else {
                Decision::Keep
            }
        } else if since(newcomer.success) > 40 * MINUTE {
            Decision::Move
        } else {
            Decision::Keep
        }
    }

    fn tried_occupant(&self, peer: &Peer) -> Option<&Record> {
        let (bucket, slot) = self.places.tried_place(peer);
        self.tried.get(bucket, slot).map(|id| &self.records[id])
    }

    /// Picks a collision; the occupant of the newcomer's slot.
    pub fn clash(&mut self, word: u64) -> Option<&Record> {
        if self.collisions.is_empty() {
            return None;
        }
        let at = (word % self.collisions.len() as u64) as usize;
        let (number, peer) = self.collisions.iter().nth(at).map(|(&number, &peer)| (number, peer))?;
        match self.newcomer(number, &peer) {
            None => {
                self.collisions.remove(&number);
                None
            }
            Some(id) => self.tried_occupant(&self.records[id].peer),
        }
    }

    /// Picks a peer to connect to.
    pub fn select(&self, only_new: bool, networks: &Filter<Vec<Class>>, words: &mut Words, now: u32) -> Picked<'_> {
        let is_candidate = |record: &Record| match networks {
            Filter::All => true,
            Filter::Only(list) => record.peer.address.is_routable() && list.contains(&record.peer.address.network()),
        };
        let (new, tried) = match networks {
            Filter::All => self.counts(),
            Filter::Only(_) => self.records.iter().filter(|(_, record)| is_candidate(record)).fold(
                (0, 0),
                |(new, tried), (_, record)| if record.is_tried { (new, tried + 1) } else { (new + 1, tried) },
            ),
        };
        let tried = if only_new { 0 } else { tried };
        if new == 0 && tried == 0 {
            return Picked::Nothing;
        }
        self.search(new > 0, tried > 0, &is_candidate, words, now).map_or(Picked::Exhausted, Picked::One)
    }

    fn search(
        &self,
        some_new: bool,
        some_tried: bool,
        is_candidate: &impl Fn(&Record) -> bool,
        words: &mut Words,
        now: u32,
    ) -> Option<&Record> {
        let in_tried = some_tried && (!some_new || words.next()? % 2 == 1);
        let (grid, buckets) = if in_tried { (&self.tried, TRIED_BUCKETS) } else { (&self.new, NEW_BUCKETS) };
        let mut factor = ONE;
        loop {
            let bucket = (words.next()? % buckets as u64) as usize;
            let start = (words.next()? % SLOTS as u64) as u32;
            let mut left = grid.occupied[bucket].rotate_right(start);
            let mut found = None;
            while left != 0 && found.is_none() {
                let slot = (left.trailing_zeros() + start) as usize % SLOTS;
                left &= left - 1;
                let record = &self.records[grid.slots[bucket * SLOTS + slot] as usize];
                found = is_candidate(record).then_some(record);
            }
            let Some(record) = found else {
                continue;
            };
            let word = u128::from(words.next()? % ONE) * u128::from(ONE);
            if word < u128::from(record.chance(now)) * u128::from(factor) {
                return Some(record);
            }
            factor = (factor + factor / 5).min(LARGEST_FACTOR);
        }
    }

    /// Picks peers to send to another node; there are as many words as records.
    pub fn sample(
        &mut self,
        most: u32,
        percent: u32,
        classes: &Filter<Vec<Class>>,
        words: &mut Words,
        now: u32,
    ) -> Vec<Peer> {
        let count = self.len();
        let mut limit = if percent == 0 { count } else { percent as usize * count / 100 };
        if most != 0 {
            limit = limit.min(most as usize);
        }
        let mut peers = Vec::with_capacity(limit);
        for (position, word) in (0..count).zip(words) {
            if peers.len() >= limit {
                break;
            }
            self.order.swap_indices(position, position + (word % (count - position) as u64) as usize);
            let (peer, &id) = self.order.get_index(position).expect("a position of the order");
            let wanted = match classes {
                Filter::All => true,
                Filter::Only(list) => list.contains(&peer.address.class()),
            };
            if wanted && !self.records[id].is_terrible(now) {
                peers.push(*peer);
            }
        }
        peers
    }

    /// Fills empty tables with the records of a file. `pairs` are the listed buckets with the indices
    /// of the new records; they are used if they are of the same asmap and as many.
    pub fn restore(&mut self, new: Vec<Record>, tried: Vec<Record>, pairs: &[(u32, u32)], same: bool) -> bool {
        let mut peers = std::collections::HashSet::with_capacity(new.len() + tried.len());
        let valid = |record: &&Record| record.peer.address.is_valid();
        if !new.iter().chain(&tried).filter(valid).all(|record| peers.insert(record.peer)) {
            return false;
        }
        drop(peers);
        self.reserve(new.len() + tried.len());
        let first = self.next_number;
        self.next_number += new.len() as u64;
        let mut ids = Vec::with_capacity(new.len());
        for (index, mut record) in new.into_iter().enumerate() {
            record.number = first + index as u64;
            ids.push(self.records.insert(record));
        }
        let mut tried_ids = Vec::with_capacity(tried.len());
        for record in tried {
            let (bucket, slot) = self.places.tried_place(&record.peer);
            if record.peer.address.is_valid() && self.tried.get(bucket, slot).is_none() {
                let number = self.next_number;
                self.next_number += 1;
                let id = self.records.insert(Record { number, is_tried: true, ..record });
                self.tried.set(bucket, slot, Some(id));
                self.tried_count += 1;
                tried_ids.push(id);
            }
        }
        for &(bucket, index) in pairs {
            self.replace(ids[index as usize], bucket as usize, same);
        }
        self.order_restored(&ids, &tried_ids);
        true
    }

    fn replace(&mut self, id: usize, mut bucket: usize, same: bool) {
        let record = &self.records[id];
        if !record.peer.address.is_valid() || record.buckets.is_full() {
            return;
        }
        let mut slot = 0;
        if same {
            slot = self.places.new_slot(bucket, &record.peer);
        }
        if !same || self.new.get(bucket, slot).is_some() {
            bucket = self.places.new_bucket(&record.peer, &record.source);
            slot = self.places.new_slot(bucket, &record.peer);
        }
        if self.new.get(bucket, slot).is_none() {
            self.occupy(id, bucket, slot);
        }
    }

    /// Puts the restored records into their order; one without a bucket gives its position to the last.
    fn order_restored(&mut self, new: &[usize], tried: &[usize]) {
        let mut order: Vec<usize> = new.iter().chain(tried).copied().collect();
        // The ids of an empty slab rise from 0.
        let mut positions: Vec<usize> = (0..order.len()).collect();
        for &id in new.iter().filter(|&&id| self.records[id].buckets.is_empty()) {
            let position = positions[id];
            order.swap_remove(position);
            if let Some(&moved) = order.get(position) {
                positions[moved] = position;
            }
        }
        self.records.retain(|_, record| record.is_tried || !record.buckets.is_empty());
        for id in order {
            self.order.insert(self.records[id].peer, id);
        }
    }
}

enum Decision {
    Erase,
    Move,
    Keep,
}

/// Refreshes the record of a known peer; whether it gets another slot.
fn refreshed(record: &mut Record, time: u32, services: u64, penalty: u32, word: u64, now: u32) -> bool {
    let since = i64::from(now) - i64::from(time);
    let interval = if since < DAY { HOUR } else { DAY };
    if i64::from(record.time) < i64::from(time) - interval - i64::from(penalty) {
        record.time = time.saturating_sub(penalty);
    }
    record.services |= services;
    time > record.time
        && !record.is_tried
        && !record.buckets.is_full()
        && word % (1 << record.buckets.len()) == 0
}
