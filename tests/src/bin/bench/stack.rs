//! The stack that each call takes, as tests/c/stack_use.c measures it.

use crate::library::{from_top, LIBRARY};
use crate::text::{grouped, Table};
use std::path::{Path, PathBuf};
use std::process::{self, Command};
use std::time::SystemTime;
use std::{env, fs};

/// A new folder that lasts as long as the value.
struct Scratch(PathBuf);

impl Scratch {
    fn new() -> Result<Self, String> {
        let now = SystemTime::now().duration_since(SystemTime::UNIX_EPOCH);
        let nanoseconds = now.map_or(0, |time| time.as_nanos());
        let name = format!("ringlog-bench-{}-{nanoseconds}", process::id());
        let folder = env::temp_dir().join(name);
        fs::create_dir(&folder).map_err(|error| format!("no folder for the program: {error}"))?;
        Ok(Scratch(folder))
    }
}

impl Drop for Scratch {
    fn drop(&mut self) {
        // A folder that stays behind does no harm.
        let _ = fs::remove_dir_all(&self.0);
    }
}

/// What the command prints; an error if it cannot be run or does not end well.
fn run(command: &mut Command, name: &str) -> Result<String, String> {
    let output = command
        .output()
        .map_err(|error| format!("{name}: {error}"))?;
    let text = String::from_utf8_lossy(&output.stdout).into_owned();
    if output.status.success() {
        Ok(text)
    } else {
        let errors = String::from_utf8_lossy(&output.stderr);
        Err(format!("{name}: {}\n{text}{errors}", output.status))
    }
}

fn build(program: &Path) -> Result<String, String> {
    let mut cc = Command::new("cc");
    cc.arg("-std=c11").arg("-I").arg(from_top("include"));
    cc.arg(from_top("tests/c/stack_use.c"))
        .arg(from_top(LIBRARY));
    run(cc.arg("-o").arg(program), "cc")
}

pub fn table() -> Result<Table, String> {
    let scratch = Scratch::new()?;
    let program = scratch.0.join("stack_use");
    build(&program)?;
    let text = run(&mut Command::new(&program), "stack_use")?;
    let mut table = Table::new(&["Call", "bytes of stack"]);
    for line in text.lines() {
        if let Some((bytes, call)) = line.split_once(" bytes of stack: ") {
            let bytes = bytes.trim().parse().map_err(|_| line.to_string())?;
            table.push(vec![call.to_string(), grouped(bytes)]);
        }
    }
    Ok(table)
}
