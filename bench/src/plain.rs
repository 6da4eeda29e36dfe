//! The same work as a Rust programmer would write it: iterators, `copy_from_slice`, slices of slices. The same answers on the same input.
use crate::linked::{Answer, Lent, Record, Recorded, Replay};

pub const BLOCK: usize = 4096;
const HEAD: usize = 4;
const MOST_ENTRIES: usize = 1024;
const MOST_BYTES: usize = 65536;

fn blocks_of(entries: usize, bytes: usize) -> usize {
    (HEAD + entries + bytes).div_ceil(BLOCK)
}

/// The bytes of entries whose lengths are lawful and fit.
fn held(lens: &[u16], room: usize) -> Option<usize> {
    if !lens.iter().all(|l| (1..=255).contains(l)) {
        return None;
    }
    let sum: usize = lens.iter().map(|&l| usize::from(l)).sum();
    (sum <= room).then_some(sum)
}

fn copy_around(ring: &mut [u8], at: usize, src: &[u8]) {
    let at = at % ring.len();
    let (first, rest) = src.split_at(src.len().min(ring.len() - at));
    ring[at..at + first.len()].copy_from_slice(first);
    ring[..rest.len()].copy_from_slice(rest);
}

fn fill_around(ring: &mut [u8], at: usize, count: usize) {
    let at = at % ring.len();
    let first = count.min(ring.len() - at);
    ring[at..at + first].fill(0);
    ring[..count - first].fill(0);
}

fn put(bytes: &[u8], lens: &[u16], ring: &mut [u8], at: usize) {
    let blocks = blocks_of(lens.len(), bytes.len());
    ring[at..at + 2].copy_from_slice(&(blocks as u16).to_le_bytes());
    ring[at + 2..at + HEAD].copy_from_slice(&(lens.len() as u16).to_le_bytes());
    for (to, &l) in ring[at + HEAD..].iter_mut().zip(lens) {
        *to = l as u8;
    }
    let used = HEAD + lens.len() + bytes.len();
    copy_around(ring, at + HEAD + lens.len(), bytes);
    fill_around(ring, at + used, blocks * BLOCK - used);
}

pub fn write_range(bytes: &[u8], lens: &[u16], n: usize, journal: &mut [u8], start: usize) -> Answer<u64> {
    let all = journal.len() / BLOCK;
    if journal.len() % BLOCK != 0 || !(1..=4096).contains(&all) {
        return Err(1);
    }
    if start >= all || !(1..=MOST_ENTRIES).contains(&n) {
        return Err(4);
    }
    let lens = lens.get(..n).ok_or(4)?;
    let bodies = held(lens, bytes.len()).ok_or(4)?;
    let blocks = blocks_of(n, bodies);
    if blocks > all {
        return Err(8);
    }
    put(&bytes[..bodies], lens, journal, start * BLOCK);
    Ok(blocks as u64)
}

/// A range in front of some bytes: its lengths and its bodies.
struct Range<'a> {
    lens: &'a [u8],
    bodies: &'a [u8],
    blocks: usize,
}

fn range_in_front(s: &[u8]) -> Option<Range<'_>> {
    let blocks = usize::from(u16::from_le_bytes([*s.first()?, *s.get(1)?]));
    let entries = usize::from(u16::from_le_bytes([*s.get(2)?, *s.get(3)?]));
    let lens = s.get(HEAD..HEAD + entries)?;
    let bytes: usize = lens.iter().map(|&l| usize::from(l)).sum();
    let range = s.get(..blocks * BLOCK)?;
    if !(1..=MOST_ENTRIES).contains(&entries) || blocks != blocks_of(entries, bytes) {
        return None;
    }
    let (bodies, padding) = range[HEAD + entries..].split_at(bytes);
    let whole = lens.iter().all(|&l| l != 0) && padding.iter().all(|&b| b == 0);
    whole.then_some(Range { lens, bodies, blocks })
}

pub fn list_entries(s: &[u8], starts: &mut [u64]) -> Answer<u64> {
    if starts.len() != MOST_ENTRIES {
        return Err(1);
    }
    let range = range_in_front(s).filter(|r| r.blocks * BLOCK == s.len()).ok_or(7)?;
    let mut at = (HEAD + range.lens.len()) as u64;
    for (start, &l) in starts.iter_mut().zip(range.lens) {
        *start = at;
        at += u64::from(l);
    }
    Ok(range.lens.len() as u64)
}

pub fn scan(s: &[u8]) -> Answer<(u64, u64)> {
    let (mut rest, mut entries, mut bytes) = (s, 0, 0);
    while !rest.is_empty() {
        let range = range_in_front(rest).ok_or(7)?;
        entries += range.lens.len();
        bytes += range.bodies.len();
        rest = &rest[range.blocks * BLOCK..];
    }
    Ok((entries as u64, bytes as u64))
}

pub fn unpack(s: &[u8], bytes: &mut [u8], lens: &mut [u16]) -> Answer<(u64, u64)> {
    if bytes.len() < s.len() || lens.len() < s.len() {
        return Err(1);
    }
    let total = scan(s)?;
    let (mut rest, mut at, mut n) = (s, 0, 0);
    while let Some(range) = range_in_front(rest) {
        bytes[at..at + range.bodies.len()].copy_from_slice(range.bodies);
        for (to, &l) in lens[n..].iter_mut().zip(range.lens) {
            *to = u16::from(l);
        }
        at += range.bodies.len();
        n += range.lens.len();
        rest = &rest[range.blocks * BLOCK..];
    }
    Ok(total)
}

const CONTENTS: [u8; 14] = [6, 0, 64, 0, 72, 0, 80, 0, 88, 0, 96, 0, 104, 0];
const BODIES: usize = 64;
const BODIES_END: usize = 112;

fn check_number(five: [u64; 5]) -> u64 {
    five.into_iter().fold(0, u64::wrapping_add)
}

pub fn write_sector(five: [u64; 5], sector: &mut [u8]) -> Answer<()> {
    if sector.len() != BLOCK {
        return Err(10);
    }
    sector.fill(0);
    sector[..CONTENTS.len()].copy_from_slice(&CONTENTS);
    let numbers = five.into_iter().chain([check_number(five)]);
    for (body, n) in sector[BODIES..BODIES_END].chunks_exact_mut(8).zip(numbers) {
        body.copy_from_slice(&n.to_le_bytes());
    }
    Ok(())
}

fn read_fields(sector: &[u8], zeros: fn(&[u8]) -> bool) -> Answer<[u64; 5]> {
    if sector.len() != BLOCK || sector[..CONTENTS.len()] != CONTENTS {
        return Err(10);
    }
    if !zeros(&sector[CONTENTS.len()..BODIES]) || !zeros(&sector[BODIES_END..]) {
        return Err(11);
    }
    let body = |i: usize| {
        let at = BODIES + 8 * i;
        u64::from_le_bytes(sector[at..at + 8].try_into().expect("8 bytes"))
    };
    let five = std::array::from_fn(body);
    if check_number(five) == body(5) {
        Ok(five)
    } else {
        Err(12)
    }
}

pub fn read_sector(sector: &[u8]) -> Answer<[u64; 5]> {
    read_fields(sector, |s| s.iter().all(|&b| b == 0))
}

/// By whole slices: the C library's memcmp, which is vectorised. Of at most a block.
fn zeros(s: &[u8]) -> bool {
    static ZEROS: [u8; BLOCK] = [0; BLOCK];
    *s == ZEROS[..s.len()]
}

/// The same with `zeros`.
pub fn read_sector_by_slices(sector: &[u8]) -> Answer<[u64; 5]> {
    read_fields(sector, zeros)
}

/// A range in front of some bytes, by whole slices where that is faster.
fn quick_range(s: &[u8]) -> Option<Range<'_>> {
    let (head, rest) = s.split_at_checked(HEAD)?;
    let blocks = usize::from(u16::from_le_bytes([head[0], head[1]]));
    let entries = usize::from(u16::from_le_bytes([head[2], head[3]]));
    if !(1..=MOST_ENTRIES).contains(&entries) {
        return None;
    }
    let lens = rest.get(..entries)?;
    let bytes = lens.iter().map(|&l| u32::from(l)).sum::<u32>() as usize;
    let range = s.get(..blocks * BLOCK)?;
    if blocks != blocks_of(entries, bytes) {
        return None;
    }
    let (bodies, padding) = range[HEAD + entries..].split_at(bytes);
    (!lens.contains(&0) && zeros(padding)).then_some(Range { lens, bodies, blocks })
}

/// The ranges of some bytes, to the last one.
fn ranges(s: &[u8]) -> Option<Vec<Range<'_>>> {
    let (mut rest, mut all) = (s, Vec::new());
    while !rest.is_empty() {
        let range = quick_range(rest)?;
        rest = &rest[range.blocks * BLOCK..];
        all.push(range);
    }
    Some(all)
}

/// The entries of ranges to replay memory, once all are known to parse: how many, and their bytes.
fn fill(s: &[u8], bytes: &mut [u8], lens: &mut [u16]) -> Option<(u64, u64)> {
    let (mut at, mut n) = (0, 0);
    for range in ranges(s)? {
        bytes[at..at + range.bodies.len()].copy_from_slice(range.bodies);
        for (to, &l) in lens[n..n + range.lens.len()].iter_mut().zip(range.lens) {
            *to = u16::from(l);
        }
        at += range.bodies.len();
        n += range.lens.len();
    }
    Some((n as u64, at as u64))
}

fn well_formed(n: usize, t: usize, [_, start, len, address, length]: [u64; 5]) -> bool {
    let (n, t) = (n as u64, t as u64);
    let table = (2 + n) * BLOCK as u64;
    start < n && len <= n && (address == table || address == table + t) && (1..=t).contains(&length)
}

/// The record of a disk.
pub fn record(n: usize, t: usize, disk: &[u8], l: &mut Replay) -> Recorded {
    let sector = |k: usize| disk.get(k * BLOCK..(k + 1) * BLOCK).ok_or(10).and_then(read_sector_by_slices);
    let slots = [sector(0).map_err(|q| (q, 1))?, sector(1).map_err(|q| (q, 2))?];
    let size = n * BLOCK;
    let bounds = (1..=4096).contains(&n) && (1..=16_777_216).contains(&t);
    let lent = l.pieces.len() == size && l.bytes.len() == size && l.lens.len() == size;
    if !bounds || disk.len() != 2 * BLOCK + size || !lent {
        return Err((1, 0));
    }
    if let Some(k) = slots.iter().position(|&s| !well_formed(n, t, s)) {
        return Err((2, k as u64 + 1));
    }
    let which = usize::from(slots[1][0] == slots[0][0].wrapping_add(1));
    let (start, len) = (slots[which][1] as usize, slots[which][2] as usize);
    let journal = &disk[2 * BLOCK..];
    let found = if start + len <= n {
        fill(&journal[start * BLOCK..(start + len) * BLOCK], &mut l.bytes, &mut l.lens)
    } else {
        let (front, back) = (&journal[start * BLOCK..], &journal[..(start + len - n) * BLOCK]);
        l.pieces[..front.len()].copy_from_slice(front);
        l.pieces[front.len()..len * BLOCK].copy_from_slice(back);
        fill(&l.pieces[..len * BLOCK], &mut l.bytes, &mut l.lens)
    };
    let (entries, bytes) = found.ok_or((7, 0))?;
    Ok(Record { which: which as u64, entries, bytes })
}

pub fn ask_journal(n: usize, t: usize, journal: &[u8], marks: &[u8]) -> u8 {
    let ok = (1..=4096).contains(&n)
        && (1..=16_777_216).contains(&t)
        && journal.len() == n * BLOCK
        && marks.len() == n
        && marks.iter().all(|&m| m <= 1);
    u8::from(!ok)
}

pub fn count_pending(bytes: &[u8], lens: &[u16], n: usize, frozen: usize) -> Answer<(u64, u64)> {
    if bytes.len() != MOST_BYTES || lens.len() != MOST_ENTRIES {
        return Err(1);
    }
    if frozen > n {
        return Err(2);
    }
    let (front, back) = lens.get(..n).ok_or(2)?.split_at(frozen);
    let first = held(front, MOST_BYTES).ok_or(2)?;
    let others = held(back, MOST_BYTES - first).ok_or(2)?;
    Ok((first as u64, (first + others) as u64))
}

pub fn count_left(
    n: usize,
    rbytes: &[u8],
    rlens: &[u16],
    entries: usize,
    taken: (usize, usize),
) -> Answer<(u64, u64)> {
    if !(1..=4096).contains(&n) || rbytes.len() != n * BLOCK || rlens.len() != n * BLOCK {
        return Err(1);
    }
    let room = rbytes.len().checked_sub(taken.1).ok_or(2)?;
    let left = rlens.get(taken.0..entries).ok_or(2)?;
    let bytes = held(left, room).ok_or(2)?;
    Ok((left.len() as u64, bytes as u64))
}

/// A machine at work that awaits nothing: the same numbers as a caller of the library keeps.
#[derive(Clone, Debug, PartialEq)]
pub struct Machine {
    pub n: usize,
    pub t: usize,
    pub start: usize,
    pub len: usize,
    pub table: (usize, usize),
    pub which: usize,
    pub written: usize,
    pub frozen: Option<usize>,
    pub pending: usize,
    pub frozen_entries: usize,
    pub replay: usize,
    pub taken: (usize, usize),
}

/// Is one of the entries of zeros only?
fn some_blank(brought: &[u8], sizes: &[u16]) -> bool {
    let mut rest = brought;
    sizes.iter().any(|&n| {
        let (entry, behind) = rest.split_at(usize::from(n));
        rest = behind;
        entry.iter().all(|&b| b == 0)
    })
}

impl Machine {
    /// Question 2 of the record.
    fn ok(&self) -> bool {
        let first = (2 + self.n) * BLOCK;
        let at = self.frozen.unwrap_or(0);
        let table =
            (self.table.0 == first || self.table.0 == first + self.t) && (1..=self.t).contains(&self.table.1);
        let extent =
            self.start < self.n && self.len <= self.written && self.written <= self.n && self.which <= 1;
        let none = self.frozen_entries == 0 || self.frozen == Some(self.written);
        table
            && extent
            && none
            && at <= self.written
            && self.frozen_entries <= self.pending
            && self.taken.0 <= self.replay
    }

    /// Questions 1 and 2, and the bytes of the frozen and of all pending entries.
    fn ask(&self, l: &Lent) -> Answer<(u64, u64)> {
        let in_bounds = (1..=4096).contains(&self.n) && (1..=16_777_216).contains(&self.t);
        let lent = l.pieces.len() == self.n * BLOCK
            && l.rbytes.len() == l.pieces.len()
            && l.rlens.len() == l.rbytes.len();
        if !in_bounds || !lent || l.bytes.len() != MOST_BYTES || l.lens.len() != MOST_ENTRIES {
            return Err(1);
        }
        if !self.ok() {
            return Err(2);
        }
        let found = count_pending(&l.bytes, &l.lens, self.pending, self.frozen_entries)?;
        count_left(self.n, &l.rbytes, &l.rlens, self.replay, self.taken)?;
        Ok(found)
    }

    pub fn add(&mut self, brought: &[u8], sizes: &[u16], l: &mut Lent) -> Answer<()> {
        let (_, pending) = self.ask(l)?;
        let new = if sizes.len() <= 16 { held(sizes, brought.len()).ok_or(4)? } else { return Err(4) };
        if some_blank(brought, sizes) {
            return Err(13);
        }
        if self.taken.0 < self.replay {
            return Err(6);
        }
        let at = pending as usize;
        if self.pending + sizes.len() > MOST_ENTRIES || at + new > MOST_BYTES {
            return Err(8);
        }
        l.bytes[at..at + new].copy_from_slice(&brought[..new]);
        l.lens[self.pending..self.pending + sizes.len()].copy_from_slice(sizes);
        self.pending += sizes.len();
        Ok(())
    }

    pub fn replay(&mut self, brought: &[u8], sizes: &[u16], l: &Lent) -> Answer<()> {
        self.ask(l)?;
        let new = if sizes.len() <= 16 { held(sizes, brought.len()).ok_or(4)? } else { return Err(4) };
        let (n, at) = self.taken;
        let next = self.replay - n >= sizes.len()
            && l.rlens[n..n + sizes.len()] == *sizes
            && l.rbytes[at..at + new] == brought[..new];
        if !next {
            return Err(6);
        }
        self.taken = (n + sizes.len(), at + new);
        Ok(())
    }

    pub fn write_journal(&mut self, out: &mut [u8], l: &mut Lent) -> Answer<()> {
        if out.len() != self.n * BLOCK {
            return Err(1);
        }
        let (first, all) = self.ask(l)?;
        let (entries, bytes) = if self.frozen_entries == 0 {
            (self.pending, all as usize)
        } else {
            (self.frozen_entries, first as usize)
        };
        if entries == 0 {
            return Err(6);
        }
        let blocks = blocks_of(entries, bytes);
        if self.written + blocks > self.n {
            return Err(8);
        }
        put(&l.bytes[..bytes], &l.lens[..entries], out, 0);
        l.bytes.copy_within(bytes..all as usize, 0);
        l.lens.copy_within(entries..self.pending, 0);
        self.written += blocks;
        self.frozen = self.frozen.map(|at| if self.frozen_entries == 0 { at } else { self.written });
        self.pending -= entries;
        self.frozen_entries = 0;
        Ok(())
    }

    /// The 16 numbers.
    pub fn numbers(&self, counter: u64) -> [u64; 16] {
        let m = |x: usize| x as u64;
        [
            m(self.n),
            m(self.t),
            counter,
            m(self.start),
            m(self.len),
            m(self.table.0),
            m(self.table.1),
            m(self.which),
            m(self.written),
            u64::from(self.frozen.is_some()),
            m(self.frozen.unwrap_or(0)),
            m(self.pending),
            m(self.frozen_entries),
            m(self.replay),
            m(self.taken.0),
            m(self.taken.1),
        ]
    }
}
