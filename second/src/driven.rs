//! Document 02's S-4: loads by `drive` come up, in at most 12 lines, and none of these is refused. Worked out from
//! the first disk, the lines, their refusals and the rows' kinds, not from what the driver names.

use crate::driver::Call;
use crate::ledger::Ledger;
use crate::sound;
use crate::store::{Step, Store};

/// The longest load: three lines a slot, two a piece, and the two ends.
const MOST: usize = 12;

/// What is counted of loads by `drive`.
pub const DRIVEN: [&str; 13] = [
    "a load by `drive` alone, 6 lines",
    "a load by `drive` alone, 8 lines",
    "a load by `drive` alone, 10 lines",
    "a load by `drive` of 12 lines",
    "a load by `drive` of 12 lines, from a disk that meets `Init`",
    "a load by `drive` from a disk that meets `Init`",
    "a load by `drive` with sync requests pushed between",
    "a load by `drive` behind steps by hand",
    "a load by `drive` with refused lines between",
    "a crash in a load by `drive`",
    "`drive` behind a piece that was read damaged",
    "6: `drive` again and again",
    "7: `drive` again and again",
];

/// What a first disk lets one expect of `drive`.
#[derive(Clone, Copy, Debug, PartialEq, Eq)]
enum First {
    /// A superblock isn't well formed: no step is taken.
    Ill,
    /// The selected journal can't be read or doesn't parse.
    Unloadable,
    /// It has a ledger; every disk that meets `Init` has.
    Loadable,
}

/// What came since the last crash or loading step by hand.
pub struct Driven {
    first: First,
    init: bool,
    /// The last row's kind.
    kind: char,
    /// How many `drive` were taken since the last crash or loading step by hand.
    lines: usize,
    /// Was a sync request pushed between them, was a step refused?
    pushed: bool,
    refused: bool,
    /// Was it a loading step by hand?
    by_hand: bool,
    /// The last step and its refusal.
    last: Option<(Call, u8)>,
    /// Of all lines so far, by `DRIVEN`.
    pub met: [u64; DRIVEN.len()],
}

impl Driven {
    pub fn new(first: &Store) -> Self {
        let expected = match (sound::system(first), Ledger::new(first)) {
            (false, _) => First::Ill,
            (true, None) => First::Unloadable,
            (true, Some(_)) => First::Loadable,
        };
        Driven {
            first: expected,
            init: sound::init(first),
            kind: 'S',
            lines: 0,
            pushed: false,
            refused: false,
            by_hand: false,
            last: None,
            met: [0; DRIVEN.len()],
        }
    }

    /// Takes a step with its refusal, 0 where it was taken, and the kind in its row; says what breaks the claim.
    pub fn feed(&mut self, call: &Call, refusal: u8, kind: char) -> Result<(), String> {
        let before = std::mem::replace(&mut self.kind, kind);
        if *call == Call::Drive {
            self.drive(before, refusal)?;
        }
        self.count(call, refusal, before);
        self.last = Some((call.clone(), refusal));
        match call {
            Call::Drive if refusal == 0 && kind == 'R' => self.begin(false),
            Call::Drive => {}
            Call::Step(_) if refusal > 0 => self.refused |= self.lines > 0,
            Call::Step(Step::Push { .. }) => self.pushed |= self.lines > 0,
            Call::Step(Step::Pop { .. } | Step::NoOp) => {}
            Call::Step(step) => self.begin(*step != Step::Crash),
        }
        Ok(())
    }

    /// From here on lines are counted anew: behind a crash, a load, or a loading step by hand.
    fn begin(&mut self, by_hand: bool) {
        (self.lines, self.pushed, self.refused, self.by_hand) = (0, false, false, by_hand);
    }

    /// One more line `drive`, at this kind.
    fn drive(&mut self, before: char, refusal: u8) -> Result<(), String> {
        let right: &[u8] = match (self.first, before) {
            (First::Ill, _) => &[2],
            (_, 'R') => &[3],
            (First::Loadable, _) => &[0],
            (First::Unloadable, _) => &[0, 6, 7],
        };
        if !right.contains(&refusal) {
            return Err(format!("`drive` at {before} is a {refusal}; on this disk it is one of {right:?}"));
        }
        self.lines += usize::from(refusal == 0);
        if self.lines >= MOST && self.kind != 'R' {
            return Err(format!("{} lines `drive` don't lead to R", self.lines));
        }
        Ok(())
    }

    fn count(&mut self, call: &Call, refusal: u8, before: char) {
        let (drive, taken) = (*call == Call::Drive, refusal == 0);
        let up = drive && taken && self.kind == 'R';
        let (alone, most) = (up && !self.by_hand, up && self.lines == MOST);
        let crash = *call == Call::Step(Step::Crash) && taken;
        let damaged = matches!(self.last, Some((Call::Step(Step::JournalRead { whole: false, .. }), 0)));
        let again = drive && self.last == Some((Call::Drive, refusal));
        let holds = [
            alone && self.lines == 6,
            alone && self.lines == 8,
            alone && self.lines == 10,
            most,
            most && self.init,
            up && self.init,
            up && self.pushed,
            up && self.by_hand,
            up && self.refused,
            crash && self.lines > 0 && before != 'R',
            drive && taken && damaged,
            again && refusal == 6,
            again && refusal == 7,
        ];
        self.met.iter_mut().zip(holds).for_each(|(count, holds)| *count += u64::from(holds));
    }
}
