//! The programs, started once for each deck, and the reference, started once for a lot.

use std::io::{BufReader, Read, Result, Write};
use std::process::{Command, Output, Stdio};
use std::thread;

/// What the program writes of a deck. It may end before it has read all of it. Where it writes nothing it
/// says one line on standard error, and none otherwise; else that is told too.
pub fn answer(program: &str, arguments: &[String], deck: &[u8]) -> Result<Vec<u8>> {
    let mut command = Command::new(program);
    command.args(arguments).stdin(Stdio::piped()).stdout(Stdio::piped()).stderr(Stdio::piped());
    let mut child = command.spawn()?;
    let mut input = child.stdin.take().expect("its input is a pipe");
    let _ = input.write_all(deck);
    drop(input);
    let Output { status, mut stdout, stderr } = child.wait_with_output()?;
    let lines = stderr.split_inclusive(|byte| *byte == b'\n').count();
    if !status.success() {
        stdout.extend(format!("ended with {status}\n").into_bytes());
    } else if lines != usize::from(stdout.is_empty()) {
        stdout.extend(b"said\n".iter().chain(&stderr));
    }
    Ok(stdout)
}

/// The reference's answers to a lot of questions. Each part of a question goes with its length before it,
/// and so does each answer.
pub fn reference<'a, Q>(oracle: &str, word: &str, questions: Q) -> Result<Vec<Vec<u8>>>
where
    Q: Iterator<Item = Vec<&'a [u8]>> + Clone + Send,
{
    let mut command = Command::new(oracle);
    let mut child = command.arg(word).stdin(Stdio::piped()).stdout(Stdio::piped()).spawn()?;
    let mut input = child.stdin.take().expect("its input is a pipe");
    let mut output = BufReader::new(child.stdout.take().expect("its output is a pipe"));
    let answers = thread::scope(|scope| {
        let asked = questions.clone();
        scope.spawn(move || -> Result<()> {
            for part in asked.flatten() {
                input.write_all(&(part.len() as u64).to_le_bytes())?;
                input.write_all(part)?;
            }
            Ok(())
        });
        let next = |_| {
            let mut long = [0; 8];
            output.read_exact(&mut long)?;
            let mut answer = vec![0; u64::from_le_bytes(long) as usize];
            output.read_exact(&mut answer)?;
            Ok(answer)
        };
        questions.map(next).collect()
    });
    child.wait()?;
    answers
}
