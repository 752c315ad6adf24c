//! The machine and the compilers.

use std::fs;
use std::process::Command;

/// What a command prints, if there is such a command and it ends well.
pub fn output(program: &str, words: &[&str]) -> Option<String> {
    let output = Command::new(program).args(words).output().ok()?;
    let text = String::from_utf8(output.stdout).ok()?;
    output.status.success().then(|| text.trim_end().to_string())
}

/// The processor's name and the number of cores.
fn processor() -> Option<String> {
    let info = fs::read_to_string("/proc/cpuinfo").ok()?;
    let fields = || info.lines().filter_map(|line| line.split_once(':'));
    let of = |name| fields().filter(move |(field, _)| field.trim() == name);
    let (_, model) = of("model name").next()?;
    let cores = of("processor").count();
    let plural = if cores == 1 { "" } else { "s" };
    Some(format!("{}, {cores} core{plural}", model.trim()))
}

fn system() -> Option<String> {
    let release = fs::read_to_string("/etc/os-release").ok()?;
    let field = |line: &str| line.strip_prefix("PRETTY_NAME=").map(str::to_string);
    let name = release.lines().find_map(field)?;
    Some(name.trim_matches('"').to_string())
}

/// The kernel's version, without what its maker adds.
fn kernel() -> Option<String> {
    let release = fs::read_to_string("/proc/sys/kernel/osrelease").ok()?;
    let version = release.trim().split('-').next()?;
    Some(format!("Linux {version}"))
}

/// What is known of the machine, in a line.
pub fn line() -> String {
    let known = [
        processor(),
        system(),
        kernel(),
        output("rustc", &["--version"]),
        output("rt", &["version"]),
    ];
    let known: Vec<_> = known.into_iter().flatten().collect();
    format!("Machine: {}.", known.join("; "))
}
