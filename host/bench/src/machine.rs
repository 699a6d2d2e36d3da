//! What Linux tells about the processor and this process.

use std::fs;

/// The processor's model.
pub fn model() -> String {
    field("/proc/cpuinfo", "model name").unwrap_or("unknown".to_string())
}

/// The most memory that this process has had, in bytes; 0 where Linux does not tell.
pub fn peak_memory() -> u64 {
    let line = field("/proc/self/status", "VmHWM").unwrap_or_default();
    let kib = line.split(' ').next().and_then(|number| number.parse::<u64>().ok());
    1024 * kib.unwrap_or(0)
}

/// The value in the first line `name: value` of a file.
fn field(path: &str, name: &str) -> Option<String> {
    let text = fs::read_to_string(path).ok()?;
    let line = text.lines().find(|line| line.starts_with(name))?;
    Some(line.split_once(':')?.1.trim().to_string())
}
