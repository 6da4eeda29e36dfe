//! The proved functions, declared as the static library has them, and each behind a safe one: a slice is a pointer and a length,
//! `&mut u64` a pointer. The compiler doesn't check them against the Rattle source; the test in header.rs does.
extern "C" {
    fn wokujani_write_range(
        bytes: *const u8,
        bytes_len: usize,
        lens: *const u16,
        lens_len: usize,
        n: u64,
        journal: *mut u8,
        journal_len: usize,
        start: u64,
        taken: *mut u64,
    ) -> u8;
    fn wokujani_list_entries(
        s: *const u8,
        s_len: usize,
        starts: *mut u64,
        starts_len: usize,
        found: *mut u64,
    ) -> u8;
    fn wokujani_scan(s: *const u8, s_len: usize, found: *mut u64, size: *mut u64) -> u8;
    fn wokujani_unpack(
        s: *const u8,
        s_len: usize,
        bytes: *mut u8,
        bytes_len: usize,
        lens: *mut u16,
        lens_len: usize,
        found: *mut u64,
        size: *mut u64,
    ) -> u8;
    fn wokujani_write_sector(
        counter: u64,
        start: u64,
        len: u64,
        address: u64,
        length: u64,
        sector: *mut u8,
        sector_len: usize,
    ) -> u8;
    fn wokujani_read_sector(
        sector: *const u8,
        sector_len: usize,
        numbers: *mut u64,
        numbers_len: usize,
    ) -> u8;
    fn wokujani_record(
        n: u64,
        t: u64,
        disk: *const u8,
        disk_len: usize,
        pieces: *mut u8,
        pieces_len: usize,
        rbytes: *mut u8,
        rbytes_len: usize,
        rlens: *mut u16,
        rlens_len: usize,
        which: *mut u64,
        found: *mut u64,
        size: *mut u64,
        slot: *mut u64,
    ) -> u8;
    fn wokujani_record_marked(
        n: u64,
        t: u64,
        disk: *const u8,
        disk_len: usize,
        marks: *const u8,
        marks_len: usize,
        pieces: *mut u8,
        pieces_len: usize,
        rbytes: *mut u8,
        rbytes_len: usize,
        rlens: *mut u16,
        rlens_len: usize,
        which: *mut u64,
        found: *mut u64,
        size: *mut u64,
        slot: *mut u64,
    ) -> u8;
    fn wokujani_ask_superblock(n: u64, t: u64, numbers: *const u64, numbers_len: usize) -> u8;
    fn wokujani_select(counter1: u64, counter2: u64) -> u64;
    fn wokujani_front(n: u64, t: u64, start: u64, len: u64, first: *mut u64, blocks: *mut u64) -> u8;
    fn wokujani_back(n: u64, t: u64, start: u64, len: u64, first: *mut u64, blocks: *mut u64) -> u8;
    fn wokujani_ask_journal(
        n: u64,
        t: u64,
        journal: *const u8,
        journal_len: usize,
        marks: *const u8,
        marks_len: usize,
    ) -> u8;
    fn wokujani_count_pending(
        bytes: *const u8,
        bytes_len: usize,
        lens: *const u16,
        lens_len: usize,
        n: u64,
        frozen: u64,
        first: *mut u64,
        size: *mut u64,
    ) -> u8;
    fn wokujani_count_left(
        blocks: u64,
        rbytes: *const u8,
        rbytes_len: usize,
        rlens: *const u16,
        rlens_len: usize,
        n: u64,
        entries: u64,
        bytes: u64,
        found: *mut u64,
        size: *mut u64,
    ) -> u8;
    fn wokujani_add(
        state: *mut u64,
        state_len: usize,
        brought: *const u8,
        brought_len: usize,
        sizes: *const u16,
        sizes_len: usize,
        k: u64,
        bytes: *mut u8,
        bytes_len: usize,
        lens: *mut u16,
        lens_len: usize,
        pieces: *const u8,
        pieces_len: usize,
        rbytes: *const u8,
        rbytes_len: usize,
        rlens: *const u16,
        rlens_len: usize,
    ) -> u8;
    fn wokujani_replay(
        state: *mut u64,
        state_len: usize,
        brought: *const u8,
        brought_len: usize,
        sizes: *const u16,
        sizes_len: usize,
        k: u64,
        bytes: *const u8,
        bytes_len: usize,
        lens: *const u16,
        lens_len: usize,
        pieces: *const u8,
        pieces_len: usize,
        rbytes: *const u8,
        rbytes_len: usize,
        rlens: *const u16,
        rlens_len: usize,
    ) -> u8;
    fn wokujani_write_journal(
        state: *mut u64,
        state_len: usize,
        id1: u64,
        two: bool,
        id2: u64,
        out: *mut u8,
        out_len: usize,
        bytes: *mut u8,
        bytes_len: usize,
        lens: *mut u16,
        lens_len: usize,
        pieces: *const u8,
        pieces_len: usize,
        rbytes: *const u8,
        rbytes_len: usize,
        rlens: *const u16,
        rlens_len: usize,
    ) -> u8;
}

/// A value, or the number of the question that was answered no.
pub type Answer<T> = Result<T, u8>;

/// The memory that a store lends its machine.
pub struct Lent {
    pub bytes: Vec<u8>,
    pub lens: Vec<u16>,
    pub pieces: Vec<u8>,
    pub rbytes: Vec<u8>,
    pub rlens: Vec<u16>,
}

/// Pieces and replay memory, as a record fills them.
#[derive(Clone, Debug, PartialEq)]
pub struct Replay {
    pub pieces: Vec<u8>,
    pub bytes: Vec<u8>,
    pub lens: Vec<u16>,
}

/// A record: the selected slot (0, 1), the entries that are in replay memory, and their bytes.
#[derive(Clone, Copy, Debug, PartialEq)]
pub struct Record {
    pub which: u64,
    pub entries: u64,
    pub bytes: u64,
}

/// A record's refusal: its number, and the slot (1, 2) that it is of, 0 where it is of none.
pub type Recorded = Result<Record, (u8, u64)>;

fn answer<T>(refusal: u8, value: T) -> Answer<T> {
    if refusal == 0 {
        Ok(value)
    } else {
        Err(refusal)
    }
}

// Each call below passes pointers and lengths of live slices, shared or exclusive as the declaration says; the functions are total.

pub fn write_range(bytes: &[u8], lens: &[u16], n: u64, journal: &mut [u8], start: u64) -> Answer<u64> {
    let mut taken = 0;
    let q = unsafe {
        wokujani_write_range(
            bytes.as_ptr(),
            bytes.len(),
            lens.as_ptr(),
            lens.len(),
            n,
            journal.as_mut_ptr(),
            journal.len(),
            start,
            &mut taken,
        )
    };
    answer(q, taken)
}

pub fn list_entries(s: &[u8], starts: &mut [u64]) -> Answer<u64> {
    let mut found = 0;
    let q =
        unsafe { wokujani_list_entries(s.as_ptr(), s.len(), starts.as_mut_ptr(), starts.len(), &mut found) };
    answer(q, found)
}

pub fn scan(s: &[u8]) -> Answer<(u64, u64)> {
    let (mut found, mut size) = (0, 0);
    let q = unsafe { wokujani_scan(s.as_ptr(), s.len(), &mut found, &mut size) };
    answer(q, (found, size))
}

pub fn unpack(s: &[u8], bytes: &mut [u8], lens: &mut [u16]) -> Answer<(u64, u64)> {
    let (mut found, mut size) = (0, 0);
    let q = unsafe {
        wokujani_unpack(
            s.as_ptr(),
            s.len(),
            bytes.as_mut_ptr(),
            bytes.len(),
            lens.as_mut_ptr(),
            lens.len(),
            &mut found,
            &mut size,
        )
    };
    answer(q, (found, size))
}

pub fn write_sector(five: [u64; 5], sector: &mut [u8]) -> Answer<()> {
    let [counter, start, len, address, length] = five;
    let q = unsafe {
        wokujani_write_sector(counter, start, len, address, length, sector.as_mut_ptr(), sector.len())
    };
    answer(q, ())
}

pub fn read_sector(sector: &[u8]) -> Answer<[u64; 5]> {
    let mut five = [0; 5];
    let q = unsafe { wokujani_read_sector(sector.as_ptr(), sector.len(), five.as_mut_ptr(), five.len()) };
    answer(q, five)
}

pub fn record(n: u64, t: u64, disk: &[u8], l: &mut Replay) -> Recorded {
    let (mut r, mut slot) = (Record { which: 0, entries: 0, bytes: 0 }, 0);
    let q = unsafe {
        wokujani_record(
            n,
            t,
            disk.as_ptr(),
            disk.len(),
            l.pieces.as_mut_ptr(),
            l.pieces.len(),
            l.bytes.as_mut_ptr(),
            l.bytes.len(),
            l.lens.as_mut_ptr(),
            l.lens.len(),
            &mut r.which,
            &mut r.entries,
            &mut r.bytes,
            &mut slot,
        )
    };
    answer(q, r).map_err(|q| (q, slot))
}

pub fn record_marked(n: u64, t: u64, disk: &[u8], marks: &[u8], l: &mut Replay) -> Recorded {
    let (mut r, mut slot) = (Record { which: 0, entries: 0, bytes: 0 }, 0);
    let q = unsafe {
        wokujani_record_marked(
            n,
            t,
            disk.as_ptr(),
            disk.len(),
            marks.as_ptr(),
            marks.len(),
            l.pieces.as_mut_ptr(),
            l.pieces.len(),
            l.bytes.as_mut_ptr(),
            l.bytes.len(),
            l.lens.as_mut_ptr(),
            l.lens.len(),
            &mut r.which,
            &mut r.entries,
            &mut r.bytes,
            &mut slot,
        )
    };
    answer(q, r).map_err(|q| (q, slot))
}

pub fn ask_superblock(n: u64, t: u64, numbers: &[u64]) -> u8 {
    unsafe { wokujani_ask_superblock(n, t, numbers.as_ptr(), numbers.len()) }
}

pub fn select(counter1: u64, counter2: u64) -> u64 {
    unsafe { wokujani_select(counter1, counter2) }
}

/// The first block and how many blocks.
pub fn front(n: u64, t: u64, start: u64, len: u64) -> Answer<(u64, u64)> {
    let (mut first, mut blocks) = (0, 0);
    let q = unsafe { wokujani_front(n, t, start, len, &mut first, &mut blocks) };
    answer(q, (first, blocks))
}

pub fn back(n: u64, t: u64, start: u64, len: u64) -> Answer<(u64, u64)> {
    let (mut first, mut blocks) = (0, 0);
    let q = unsafe { wokujani_back(n, t, start, len, &mut first, &mut blocks) };
    answer(q, (first, blocks))
}

pub fn ask_journal(n: u64, t: u64, journal: &[u8], marks: &[u8]) -> u8 {
    unsafe { wokujani_ask_journal(n, t, journal.as_ptr(), journal.len(), marks.as_ptr(), marks.len()) }
}

pub fn count_pending(bytes: &[u8], lens: &[u16], n: u64, frozen: u64) -> Answer<(u64, u64)> {
    let (mut first, mut size) = (0, 0);
    let q = unsafe {
        wokujani_count_pending(
            bytes.as_ptr(),
            bytes.len(),
            lens.as_ptr(),
            lens.len(),
            n,
            frozen,
            &mut first,
            &mut size,
        )
    };
    answer(q, (first, size))
}

pub fn count_left(
    blocks: u64,
    rbytes: &[u8],
    rlens: &[u16],
    n: u64,
    taken: (u64, u64),
) -> Answer<(u64, u64)> {
    let (mut found, mut size) = (0, 0);
    let q = unsafe {
        wokujani_count_left(
            blocks,
            rbytes.as_ptr(),
            rbytes.len(),
            rlens.as_ptr(),
            rlens.len(),
            n,
            taken.0,
            taken.1,
            &mut found,
            &mut size,
        )
    };
    answer(q, (found, size))
}

pub fn add(state: &mut [u64], brought: &[u8], sizes: &[u16], k: u64, l: &mut Lent) -> u8 {
    unsafe {
        wokujani_add(
            state.as_mut_ptr(),
            state.len(),
            brought.as_ptr(),
            brought.len(),
            sizes.as_ptr(),
            sizes.len(),
            k,
            l.bytes.as_mut_ptr(),
            l.bytes.len(),
            l.lens.as_mut_ptr(),
            l.lens.len(),
            l.pieces.as_ptr(),
            l.pieces.len(),
            l.rbytes.as_ptr(),
            l.rbytes.len(),
            l.rlens.as_ptr(),
            l.rlens.len(),
        )
    }
}

pub fn replay(state: &mut [u64], brought: &[u8], sizes: &[u16], k: u64, l: &Lent) -> u8 {
    unsafe {
        wokujani_replay(
            state.as_mut_ptr(),
            state.len(),
            brought.as_ptr(),
            brought.len(),
            sizes.as_ptr(),
            sizes.len(),
            k,
            l.bytes.as_ptr(),
            l.bytes.len(),
            l.lens.as_ptr(),
            l.lens.len(),
            l.pieces.as_ptr(),
            l.pieces.len(),
            l.rbytes.as_ptr(),
            l.rbytes.len(),
            l.rlens.as_ptr(),
            l.rlens.len(),
        )
    }
}

pub fn write_journal(state: &mut [u64], id1: u64, id2: Option<u64>, out: &mut [u8], l: &mut Lent) -> u8 {
    unsafe {
        wokujani_write_journal(
            state.as_mut_ptr(),
            state.len(),
            id1,
            id2.is_some(),
            id2.unwrap_or(0),
            out.as_mut_ptr(),
            out.len(),
            l.bytes.as_mut_ptr(),
            l.bytes.len(),
            l.lens.as_mut_ptr(),
            l.lens.len(),
            l.pieces.as_ptr(),
            l.pieces.len(),
            l.rbytes.as_ptr(),
            l.rbytes.len(),
            l.rlens.as_ptr(),
            l.rlens.len(),
        )
    }
}
