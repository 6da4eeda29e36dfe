//! The first store's static library, called through C, held to second on random and damaged sectors.

use std::collections::BTreeSet;
use std::io::{self, BufReader, BufWriter, Read, Write};
use std::path::{Path, PathBuf};
use std::process::{Command, Stdio};
use std::{env, fs, process, thread};

use crate::days::Rng;
use crate::sector::{read, write, written, SECTOR};
use crate::sector_inputs::{any_damage, any_record};
use crate::superblock::Superblock;
use crate::Refusal;

const CASES: u64 = 20_000;

/// What `c/sectors.c` lays before and behind lent memory: bytes, numbers.
const GUARDS: (usize, usize) = (15, 2);

const FOLDER: &str = env!("CARGO_MANIFEST_DIR");

/// A record to be written into so many bytes, and a sector to be read into so many numbers.
struct Case {
    told: String,
    pattern: u8,
    record: Superblock,
    room: usize,
    sector: Vec<u8>,
    numbers: usize,
}

fn length(rng: &mut Rng) -> usize {
    match rng.below(10) {
        0 => rng.of(&[0, 1, 2, 13, 14, 63, 64, 111, 112, 4095, 4097, 8192]),
        1 => rng.below(9000) as usize,
        _ => SECTOR,
    }
}

impl Case {
    fn new(seed: u64) -> Self {
        let rng = &mut Rng::new(seed ^ 0xb04d);
        let (name, _, damage) = any_damage(rng);
        let mut sector = written(&any_record(rng));
        damage(rng, &mut sector);
        sector.resize(length(rng), 0);
        let numbers = if rng.one_in(4) { rng.of(&[0, 1, 4, 6, 10]) } else { 5 };
        let (record, room, pattern) = (any_record(rng), length(rng), rng.number() as u8);
        let told = format!("{name}, {} bytes, {numbers} numbers; {room} bytes to write", sector.len());
        Case { told, pattern, record, room, sector, numbers }
    }

    /// The case as `c/sectors.c` reads it.
    fn bytes(&self) -> Vec<u8> {
        let numbers = self.record.numbers().into_iter();
        let sizes = [self.room, self.numbers, self.sector.len()].map(|x| x as u64);
        let numbers = numbers.chain(sizes).flat_map(u64::to_le_bytes);
        [self.pattern].into_iter().chain(numbers).chain(self.sector.iter().copied()).collect()
    }

    fn writer(&self) -> (u8, Vec<u8>) {
        let mut buffer = vec![self.pattern; self.room];
        let answer = write(&self.record, &mut buffer).err().map_or(0, Refusal::number);
        (answer, buffer)
    }

    /// The sector's questions come first; then the numbers must be five.
    fn reader(&self) -> (u8, Vec<u8>) {
        match read(&self.sector) {
            Ok(record) if self.numbers == 5 => (0, record.numbers().map(u64::to_le_bytes).concat()),
            answer => {
                let refusal = answer.err().unwrap_or(Refusal::Sizes).number();
                (refusal, vec![self.pattern; 8 * self.numbers])
            }
        }
    }

    /// What must come back, part by part.
    fn right(&self) -> [(&'static str, Vec<u8>); 5] {
        let ((wrote, buffer), (read, numbers)) = (self.writer(), self.reader());
        let guarded = |bytes: Vec<u8>, guard: usize| {
            let guard = vec![self.pattern; guard];
            [&guard[..], &bytes, &guard].concat()
        };
        [
            ("the writer's answer", vec![wrote]),
            ("the written bytes, from 15 before them on", guarded(buffer, GUARDS.0)),
            ("the reader's answer", vec![read]),
            ("the numbers' bytes, from 16 before them on", guarded(numbers, 8 * GUARDS.1)),
            ("whether the sector is as it was", vec![1]),
        ]
    }
}

/// A folder of this test's own, gone with it.
struct Folder(PathBuf);

impl Folder {
    fn new() -> io::Result<Self> {
        let path = env::temp_dir().join(format!("second-border-{}", process::id()));
        fs::create_dir_all(&path).map(|()| Folder(path))
    }
}

impl Drop for Folder {
    fn drop(&mut self) {
        let _ = fs::remove_dir_all(&self.0);
    }
}

/// What is not there of all that this test needs.
fn missing() -> Vec<&'static str> {
    let runs = Command::new("cc").arg("--version").output().is_ok_and(|cc| cc.status.success());
    let files = ["../target/staticlib/liblinked.a", "../include/wokujani.h"];
    let files = files.into_iter().filter(|file| !Path::new(FOLDER).join(file).exists());
    [("cc", runs)].into_iter().filter(|(_, there)| !there).map(|(name, _)| name).chain(files).collect()
}

fn compile(program: &Path) {
    let mut cc = Command::new("cc");
    cc.current_dir(FOLDER).args(["-O2", "-I../include", "c/sectors.c", "-o"]).arg(program);
    let ended = cc.args(["-L../target/staticlib", "-llinked"]).output().expect("cc runs");
    assert!(ended.status.success(), "{cc:?}\n{}", String::from_utf8_lossy(&ended.stderr));
}

/// Takes the answers to all cases, up to the first that is apart.
fn hold(answers: impl Read) -> Result<(), String> {
    let mut answers = BufReader::with_capacity(1 << 16, answers);
    for seed in 1..=CASES {
        let case = Case::new(seed);
        for (part, right) in case.right() {
            let mut got = vec![0; right.len()];
            let told = format!("case {seed} ({}): {part}", case.told);
            answers.read_exact(&mut got).map_err(|_| format!("{told}: the program has ended"))?;
            if let Some(at) = (0..right.len()).find(|at| got[*at] != right[*at]) {
                return Err(format!("{told}: byte {at} is {}, right is {}", got[at], right[at]));
            }
        }
    }
    match answers.read(&mut [0]) {
        Ok(0) => Ok(()),
        _ => Err("more is answered than was asked".into()),
    }
}

#[test]
fn library() {
    let missing = missing();
    if !missing.is_empty() {
        // Past what the test harness keeps to itself, so that it is seen.
        let what = missing.join(", no ");
        let text = format!("nothing was compared with the static library: there is no {what}\n");
        return io::stderr().write_all(text.as_bytes()).expect("standard error");
    }
    let folder = Folder::new().expect("a folder for the program");
    let program = folder.0.join("sectors");
    compile(&program);
    let child = Command::new(&program).stdin(Stdio::piped()).stdout(Stdio::piped()).spawn();
    let mut child = child.expect("the program runs");
    let (stdin, stdout) = (child.stdin.take().expect("piped"), child.stdout.take().expect("piped"));
    let held = thread::scope(|scope| {
        // It ends early where the program does.
        scope.spawn(|| {
            let mut cases = BufWriter::with_capacity(1 << 16, stdin);
            (1..=CASES).try_for_each(|seed| cases.write_all(&Case::new(seed).bytes()))
        });
        hold(stdout)
    });
    let ended = child.wait().expect("the program ends");
    held.unwrap_or_else(|what| panic!("{what}"));
    assert!(ended.success(), "{ended}");
}

/// The cases meet each answer of both functions, each refusal by a wrong count of numbers too.
#[test]
fn cases_meet_every_answer() {
    let cases = || (1..=CASES / 10).map(Case::new);
    let wrote: BTreeSet<u8> = cases().map(|case| case.writer().0).collect();
    let read = |five: bool| -> BTreeSet<u8> {
        cases().filter(|case| (case.numbers == 5) == five).map(|case| case.reader().0).collect()
    };
    assert_eq!(wrote, [0, 10].into());
    assert_eq!(read(true), [0, 10, 11, 12].into());
    assert_eq!(read(false), [1, 10, 11, 12].into());
}
