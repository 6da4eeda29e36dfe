//! C programs over the library, compiled as docs/LINKING.md says, and that page's own.
use std::path::{Path, PathBuf};
use std::process::{self, Command, Output};
use std::{env, fs};

pub fn top() -> PathBuf {
    Path::new(env!("CARGO_MANIFEST_DIR")).join("..")
}

pub fn there() -> bool {
    Command::new("cc").arg("--version").output().is_ok_and(|cc| cc.status.success())
}

/// A program of the page, the one under this title, and the lines that it prints: those four blanks in behind the words.
pub fn page(title: &str, words: &str) -> (String, String) {
    let page = fs::read_to_string(top().join("docs/LINKING.md")).expect("the page");
    let (_, rest) = page.split_once(&format!("\n## {title}\n")).expect("the title");
    let (_, rest) = rest.split_once("```c\n").expect("a program");
    let (program, rest) = rest.split_once("```").expect("its end");
    let (_, printed) = rest.split_once(&format!("{words}\n\n")).expect("what it prints");
    let lines = printed.lines().map_while(|l| l.strip_prefix("    "));
    (program.to_string(), lines.map(|l| format!("{l}\n")).collect())
}

/// A folder of a test's own, gone with it.
pub struct Folder(pub PathBuf);

impl Folder {
    pub fn new(name: &str) -> Self {
        let path = env::temp_dir().join(format!("bench-{name}-{}", process::id()));
        fs::create_dir_all(&path).expect("a folder");
        Folder(path)
    }

    /// The program of this text.
    pub fn compile(&self, text: &str) -> PathBuf {
        let (source, built) = (self.0.join("program.c"), self.0.join("program"));
        fs::write(&source, text).expect("the program");
        let mut cc = Command::new("cc");
        cc.args(["-O2", "-Wall", "-Wextra", "-Werror", "-Iinclude", "-o"]).arg(&built).arg(&source);
        let ended = cc.args(["-Ltarget/staticlib", "-llinked"]).current_dir(top()).output().expect("cc runs");
        assert!(ended.status.success(), "{}", String::from_utf8_lossy(&ended.stderr));
        built
    }
}

impl Drop for Folder {
    fn drop(&mut self) {
        let _ = fs::remove_dir_all(&self.0);
    }
}

pub fn ran(program: &Path, args: &[&str]) -> Output {
    Command::new(program).args(args).output().expect("it runs")
}
