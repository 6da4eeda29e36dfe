//! Geometry of the disk (003) and intervals on the journal's ring (002).

pub const BLOCK: usize = 4096;

/// A place on the disk, in bytes.
#[derive(Clone, Copy, Debug, PartialEq, Eq)]
pub struct Location {
    pub addr: u64,
    pub len: u64,
}

/// A start and a length in blocks, going round the ring.
#[derive(Clone, Copy, Debug, PartialEq, Eq)]
pub struct Interval {
    pub start: u64,
    pub len: u64,
}

impl Interval {
    pub fn new(start: u64, len: u64) -> Self {
        Interval { start, len }
    }

    fn end(self) -> u64 {
        self.start + self.len
    }

    /// Overlap on a line, of contiguous intervals; an empty one overlaps nothing (S-3).
    pub fn meets(self, other: Interval) -> bool {
        self.len > 0 && other.len > 0 && self.end() > other.start && other.end() > self.start
    }
}

/// N journal blocks and tables of at most T bytes.
#[derive(Clone, Copy, Debug, PartialEq, Eq)]
pub struct Geometry {
    n: u64,
    t: u64,
}

impl Geometry {
    pub const SUPERBLOCKS: [u64; 2] = [0, 4096];
    pub const JOURNAL: u64 = 8192;

    /// None where question 1 says no.
    pub fn new(n: u64, t: u64) -> Option<Self> {
        ((1..=4096).contains(&n) && (1..=16_777_216).contains(&t)).then_some(Geometry { n, t })
    }

    pub fn n(self) -> u64 {
        self.n
    }

    pub fn t(self) -> u64 {
        self.t
    }

    /// The addresses of table 1 and table 2.
    pub fn tables(self) -> [u64; 2] {
        let first = Self::JOURNAL + self.n * BLOCK as u64;
        [first, first + self.t]
    }

    pub fn valid_table(self, loc: Location) -> bool {
        self.tables().contains(&loc.addr) && (1..=self.t).contains(&loc.len)
    }

    pub fn valid(self, i: Interval) -> bool {
        i.start < self.n && i.len <= self.n
    }

    pub fn contiguous(self, i: Interval) -> bool {
        self.valid(i) && i.end() <= self.n
    }

    /// The position `span` blocks on from `start`.
    pub fn advance(self, start: u64, span: u64) -> u64 {
        if start + span >= self.n {
            start + span - self.n
        } else {
            start + span
        }
    }

    /// The first block after the interval.
    pub fn next_start(self, i: Interval) -> u64 {
        self.advance(i.start, i.len)
    }

    /// The piece up to the ring's end.
    pub fn front(self, i: Interval) -> Option<Interval> {
        (i.len > 0).then(|| Interval::new(i.start, i.len.min(self.n - i.start)))
    }

    /// The piece from the ring's block 0, where the interval passes the end.
    pub fn back(self, i: Interval) -> Option<Interval> {
        self.wraps(i).then(|| Interval::new(0, i.end() - self.n))
    }

    pub fn wraps(self, i: Interval) -> bool {
        i.end() > self.n
    }

    pub fn contains(self, i: Interval, block: u64) -> bool {
        (i.start..i.end()).contains(&block) || (i.start..i.end()).contains(&(block + self.n))
    }

    pub fn subinterval(self, a: Interval, b: Interval) -> bool {
        let inside = |start| start >= b.start && start + a.len <= b.end();
        inside(a.start) || inside(a.start + self.n)
    }

    /// Overlap on the ring; an empty interval overlaps nothing, and one that wraps isn't empty.
    pub fn overlap(self, a: Interval, b: Interval) -> bool {
        let parts = |i: Interval| (self.front(i).into_iter().chain(self.back(i))).collect::<Vec<_>>();
        match (self.wraps(a), self.wraps(b)) {
            (true, true) => true,
            (true, false) => parts(a).into_iter().any(|p| p.meets(b)),
            (false, true) => parts(b).into_iter().any(|p| p.meets(a)),
            (false, false) => a.meets(b),
        }
    }

    /// The interval's blocks in its own order.
    pub fn ring(self, i: Interval) -> impl Iterator<Item = usize> {
        (0..i.len).map(move |k| self.advance(i.start, k) as usize)
    }
}
