//! The process that works is a child of the one that was started. If it dies, by a fault that no difference shows, the
//! job under way is done again step by step, and its sequence is cut down with one process for each try.

use crate::cut::cut;
use crate::frames::Program;
use crate::run::Watch;
use crate::step::{parse_all, Step};
use std::cell::RefCell;
use std::fs::{self, File};
use std::io::Write;
use std::path::{Path, PathBuf};
use std::process::{ExitStatus, Stdio};
use std::time::Duration;

/// Writes every step to a file before it is taken, and starts the file anew with each sequence.
pub struct Trace {
    path: PathBuf,
    file: RefCell<Option<File>>,
}

impl Trace {
    pub fn new(path: PathBuf) -> Trace {
        Trace {
            path,
            file: RefCell::new(None),
        }
    }
}

impl Watch for Trace {
    fn begin(&self) {
        *self.file.borrow_mut() = File::create(&self.path).ok();
    }

    fn step(&self, step: &Step) {
        if let Some(file) = self.file.borrow_mut().as_mut() {
            // What cannot be written is missing in a report, no more.
            let _ = writeln!(file, "{step}");
        }
    }
}

/// The text of a sequence, one step a line.
pub fn text(steps: &[Step]) -> String {
    steps.iter().map(|step| format!("{step}\n")).collect()
}

/// A folder for the files of one supervised run; it is removed at the end.
pub struct Folder(PathBuf);

impl Folder {
    pub fn new() -> std::io::Result<Folder> {
        let name = format!("compare-{}", std::process::id());
        let path = std::env::temp_dir().join(name);
        fs::create_dir_all(&path)?;
        Ok(Folder(path))
    }

    pub fn file(&self, name: &str) -> PathBuf {
        self.0.join(name)
    }
}

impl Drop for Folder {
    fn drop(&mut self) {
        let _ = fs::remove_dir_all(&self.0);
    }
}

/// Where a working process writes which job each of its threads has begun.
pub fn begun_file(folder: &Path, thread: usize) -> PathBuf {
    folder.join(format!("begun-{thread}"))
}

/// Starts this program again with these words.
fn again(words: &[String], quiet: bool) -> std::io::Result<ExitStatus> {
    let mut command = Program::itself(words.to_vec())?.command();
    if quiet {
        command.stdout(Stdio::null()).stderr(Stdio::null());
    }
    command.status()
}

/// Runs the work in a child and gives its exit status, 1 after a death, which is looked into.
pub fn supervise(words: &[String], report: &dyn Fn(&str, &[Step])) -> std::io::Result<i32> {
    let folder = Folder::new()?;
    let inner = |more: &[&str]| {
        let more = more.iter().map(|word| word.to_string());
        words.iter().cloned().chain(more).collect::<Vec<String>>()
    };
    let path = folder.0.display().to_string();
    let status = again(&inner(&["--inner", &path]), false)?;
    if let Some(code) = status.code() {
        return Ok(code);
    }
    println!("the working process died: {status}");
    for thread in 0.. {
        let Ok(begun) = fs::read_to_string(begun_file(&folder.0, thread)) else {
            break;
        };
        let trace = folder.file("trace").display().to_string();
        let once = again(
            &inner(&["--inner", &path, "--only", begun.trim(), "--trace", &trace]),
            true,
        )?;
        if once.code().is_some() {
            continue;
        }
        println!("it dies again in round and job {begun}");
        let steps = fs::read_to_string(&trace)
            .map_err(|error| error.to_string())
            .and_then(|text| parse_all(&text));
        let Ok(steps) = steps else {
            continue;
        };
        let tried = folder.file("tried");
        let fails = |steps: &[Step]| {
            fs::write(&tried, text(steps)).ok()?;
            let replay = tried.display().to_string();
            let status = again(&inner(&["--inner", &path, "--replay", &replay]), true).ok()?;
            let dies = status.code().is_none();
            dies.then(|| (steps.len().saturating_sub(1), format!("death: {status}")))
        };
        match cut(&fails, steps.clone(), Duration::from_secs(60)) {
            Some((steps, what)) => report(&what, &steps),
            None => report("death, but not when the sequence is replayed", &steps),
        }
        return Ok(1);
    }
    println!("no single job dies again");
    Ok(1)
}
