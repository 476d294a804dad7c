//! A program under test, run on an input.

use std::io::Write;
use std::process::{Command, Stdio};
use std::sync::atomic::Ordering::SeqCst;

use crate::watch::CHILD;

/// Those that are compared.
pub struct Programs {
    pub chart: Option<Program>,
    pub records: Option<Program>,
    pub convert: Option<Program>,
}

pub struct Program {
    pub path: String,
    /// Of so many inputs one is put to the program.
    pub every: u64,
}

impl Program {
    pub fn compare(&self, input: &[u8], expected: &[u8]) -> Option<String> {
        let printed = self.print(input);
        (printed != expected).then(|| {
            let text = String::from_utf8_lossy;
            format!("printed {:?} for {:?}", text(&printed), text(expected))
        })
    }

    fn print(&self, input: &[u8]) -> Vec<u8> {
        let mut command = Command::new(&self.path);
        let mut child = command.stdin(Stdio::piped()).stdout(Stdio::piped()).spawn().expect("the program starts");
        CHILD.store(child.id() as i32, SeqCst);
        // A program that has judged enough may close its input early.
        let _ = child.stdin.take().unwrap().write_all(input);
        let output = child.wait_with_output().expect("the program ends");
        CHILD.store(0, SeqCst);
        output.stdout
    }
}
