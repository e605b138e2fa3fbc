//! Scripts as the tests write them.

use reference::session::Session;

/// The lines of a script: steps stand on lines or between semicolons, what follows `--` is a remark.
pub fn script(text: &str) -> Vec<Vec<u8>> {
    text.lines()
        .map(|line| line.split("--").next().unwrap_or(""))
        .flat_map(|line| line.split(';'))
        .map(str::trim)
        .filter(|step| !step.is_empty())
        .map(|step| step.as_bytes().to_vec())
        .collect()
}

/// What a session says to each line of a script.
#[allow(dead_code)] // not every test file asks
pub fn replies(session: &mut Session, text: &str) -> Vec<String> {
    script(text).iter().map(|line| session.line(line).to_string()).collect()
}
