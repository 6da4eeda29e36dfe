//! Document 02's S-2: a sync request reaches State1 only after a landing that covered every entry added before
//! its push. Worked out from steps, their answers and how many requests are at each state, not from the rule
//! that moves them.

use crate::disk::Id;
use crate::ledger::Ledger;
use crate::range::Entry;
use crate::store::Step;

/// What is counted of the requests that reached State1.
pub const REACHED: [&str; 5] = [
    "a sync request reaches State1",
    "a sync request reaches State1, entries added before its push",
    "a sync request reaches State1, some of the entries before it dropped",
    "a sync request reaches State1 after an idle save",
    "a sync request reaches State1 after an idle save, entries added before its push",
];

/// A request, from its push until its pop.
#[derive(Default)]
struct Request {
    id: Id,
    /// How many entries were added between the last crash and its push.
    added: usize,
    covered: bool,
    /// Of the entries that its landing covered, some lay among the dropped.
    dropped: bool,
    /// Was it a commit's request that took it from State3?
    idle: Option<bool>,
    reached: bool,
}

/// What came since the last crash, beside the ledger.
#[derive(Default)]
pub struct Covered {
    /// A first disk without a ledger can't be loaded: no commit, no landing.
    ledger: Option<Ledger>,
    /// What the crash left, at first what the disk holds.
    kept: Vec<Entry>,
    added: Vec<Entry>,
    /// By first landings of location commits.
    dropped: Vec<Entry>,
    /// In the order of their pushes.
    requests: Vec<Request>,
    /// Of all requests so far, by `REACHED`.
    pub reached: [u64; 5],
}

fn kept(ledger: &Option<Ledger>) -> Vec<Entry> {
    ledger.iter().flat_map(Ledger::entries).cloned().collect()
}

impl Covered {
    pub fn new(ledger: Option<Ledger>) -> Self {
        let kept = kept(&ledger);
        Covered { ledger, kept, ..Covered::default() }
    }

    /// Takes a step with its answer, and how many requests are then at State1, State2 and State3; says what
    /// breaks the claim.
    pub fn feed(&mut self, step: &Step, refused: bool, at: [usize; 3]) -> Result<(), String> {
        let landing = self.ledger.as_mut().and_then(|ledger| ledger.feed(step, refused));
        match step {
            _ if refused => {}
            Step::Add(entries) => self.added.extend_from_slice(entries),
            Step::Push { id } => {
                self.requests.push(Request { id: *id, added: self.added.len(), ..Request::default() });
            }
            Step::Pop { id } => self.pop(*id)?,
            Step::Crash => self.crash(),
            _ => {}
        }
        if let Some(dropped) = landing {
            self.dropped.extend(dropped);
            self.land();
        }
        self.moved(step, at)
    }

    fn pop(&mut self, id: Id) -> Result<(), String> {
        let at = self.requests.iter().position(|r| r.id == id && r.reached);
        let at = at.ok_or(format!("request {id} is popped, and wasn't at State1"))?;
        self.requests.remove(at);
        Ok(())
    }

    fn crash(&mut self) {
        self.kept = kept(&self.ledger);
        self.added.clear();
        self.dropped.clear();
        self.requests.clear();
    }

    /// A first landing covers the requests whose entries, place by place, begin what is dropped and what is kept.
    fn land(&mut self) {
        for request in self.requests.iter_mut().filter(|r| !r.covered) {
            let mut there = self.dropped.iter().chain(self.ledger.iter().flat_map(Ledger::entries));
            let mut before = self.kept.iter().chain(&self.added[..request.added]);
            request.dropped = before.clone().next().is_some() && !self.dropped.is_empty();
            request.covered = before.all(|entry| there.next() == Some(entry));
        }
    }

    /// Each request begins at State3, and those at one state move together: the earliest pushed are the furthest.
    fn moved(&mut self, step: &Step, [first, second, third]: [usize; 3]) -> Result<(), String> {
        if first + second + third != self.requests.len() {
            return Err(format!("by the pushes and pops there are {} requests", self.requests.len()));
        }
        let idle = matches!(step, Step::CommitLog { .. } | Step::CommitLocation { .. });
        for request in &mut self.requests[..first + second] {
            request.idle.get_or_insert(idle);
        }
        for request in self.requests[..first].iter_mut().filter(|r| !r.reached) {
            if !request.covered {
                let Request { id, added, .. } = request;
                return Err(format!(
                    "request {id} is at State1: no landing covered the {added} entries before it"
                ));
            }
            request.reached = true;
            let (entries, idle) = (request.added > 0, request.idle == Some(true));
            let counted = [true, entries, request.dropped, idle, idle && entries];
            self.reached.iter_mut().zip(counted).for_each(|(count, holds)| *count += u64::from(holds));
        }
        Ok(())
    }
}
