//! Botan's NewHope-1024, as its own program times it.
use std::process::Command;

/// Cycles of one operation of each kind.
#[derive(Clone, Copy)]
pub struct NewHope {
    pub keygen: f64,
    /// What the side does that answers a public key; the other side's finish is `shareda`.
    pub responder: f64,
}

/// None where Botan is not installed.
pub fn version() -> Option<String> {
    let output = Command::new("botan").arg("version").output().ok()?;
    Some(String::from_utf8_lossy(&output.stdout).trim().to_string())
}

/// One short run.
pub fn speed(milliseconds: u32) -> Option<NewHope> {
    let output = Command::new("botan").args(["speed", "--format=json", &format!("--msec={milliseconds}"), "NEWHOPE"]).output().ok()?;
    let text = String::from_utf8_lossy(&output.stdout);
    Some(NewHope { keygen: cycles(&text, "keygen")?, responder: cycles(&text, "sharedb")? })
}

/// From a line like {"algo": "NEWHOPE", "op": "keygen", "events": 647, "cycles": 70358920, "nanos": 33538312}.
fn cycles(text: &str, operation: &str) -> Option<f64> {
    let line = text.lines().find(|line| line.contains(&format!("\"op\": \"{operation}\"")))?;
    let field = |name: &str| -> Option<f64> {
        let (_, rest) = line.split_once(&format!("\"{name}\": "))?;
        rest.split([',', '}']).next()?.trim().parse().ok()
    };
    Some(field("cycles")? / field("events")?)
}
