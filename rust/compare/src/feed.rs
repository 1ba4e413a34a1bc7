//! Frames into the program, answers out of it: a thread writes, so that neither side waits for the other's pipe.

use std::io::{self, BufReader, BufWriter, Read, Write};
use std::process::{Child, ChildStdin, ChildStdout};
use std::sync::Mutex;
use std::sync::mpsc::{self, Receiver, RecvTimeoutError, Sender};
use std::thread;
use std::time::Duration;

use crate::program::Program;

/// What a pipe holds.
const ROOM: usize = 1 << 16;

/// A call as the program is asked for it.
pub trait Call: Send {
    type Answer;

    /// Appends the call's frame: its header and bytes.
    fn write(&self, frame: &mut Vec<u8>);

    /// Takes the program's answer to the call.
    fn read(&self, output: &mut impl Read) -> io::Result<Self::Answer>;
}

/// The header of a frame.
pub(crate) fn write_header(frame: &mut Vec<u8>, numbers: [u32; 6]) {
    frame.extend(numbers.iter().flat_map(|number| number.to_le_bytes()));
}

/// The next `N` bytes of an answer.
pub(crate) fn read_array<const N: usize>(output: &mut impl Read) -> io::Result<[u8; N]> {
    let mut bytes = [0; N];
    output.read_exact(&mut bytes).map(|()| bytes)
}

/// Asks a run of the program for all calls and hands each with its answer to `judge`; says how many there were.
///
/// It is an error if `judge` finds one, or if the program ends early, writes more, falls silent or fails.
pub fn feed<C: Call>(
    program: &Program,
    calls: impl Iterator<Item = C> + Send,
    judge: impl FnMut(C, C::Answer) -> Result<(), String>,
) -> Result<u64, String> {
    let mut child = program.start()?;
    let (input, output) = (child.stdin.take(), child.stdout.take());
    let (Some(input), Some(output)) = (input, output) else {
        return Err("the program has no pipes".into());
    };
    let child = Mutex::new(child);
    let (asked, to_judge) = mpsc::channel();
    let (alive, watched) = mpsc::channel();
    thread::scope(|scope| {
        scope.spawn(|| write_frames(calls, input, asked));
        let watcher = scope.spawn(|| watch(&child, watched, program.patience));
        let judged = judge_all(output, to_judge, alive, judge);
        let silent = watcher.join().is_ok_and(|silent| silent);
        let ended = end(&child, judged.is_err());
        match judged {
            Err(_) if silent => Err(format!("the program was silent for {} seconds", program.patience.as_secs())),
            Err(why) => Err(format!("{why} (the program ended by {ended})")),
            Ok(count) if ended == "exit status: 0" => Ok(count),
            Ok(count) => Err(format!("after {count} answers the program ended by {ended}")),
        }
    })
}

/// Never waits for the judge: what is asked and not yet judged is at most what the two pipes hold.
fn write_frames<C: Call>(calls: impl Iterator<Item = C>, input: ChildStdin, asked: Sender<C>) {
    let mut input = BufWriter::with_capacity(ROOM, input);
    let mut frame = Vec::new();
    for call in calls {
        frame.clear();
        call.write(&mut frame);
        // Where the program takes nothing more, the judge finds out and says so.
        if asked.send(call).is_err() || input.write_all(&frame).is_err() {
            return;
        }
    }
}

fn judge_all<C: Call>(
    output: ChildStdout,
    to_judge: Receiver<C>,
    alive: Sender<()>,
    mut judge: impl FnMut(C, C::Answer) -> Result<(), String>,
) -> Result<u64, String> {
    let mut output = BufReader::with_capacity(ROOM, output);
    let mut count = 0;
    for call in to_judge {
        let answer = call.read(&mut output);
        let answer = answer.map_err(|error| format!("no answer {count} can be read: {error}"))?;
        judge(call, answer).map_err(|why| format!("call {count}: {why}"))?;
        count += 1;
        // The watcher may have given up.
        let _ = alive.send(());
    }
    let more = output.read(&mut [0]).map_err(|error| format!("after {count} answers: {error}"))?;
    if more == 0 { Ok(count) } else { Err(format!("the program writes more than its {count} answers")) }
}

/// Ends a program that has been silent for as long as the patience lasts, and says whether it had to.
fn watch(child: &Mutex<Child>, alive: Receiver<()>, patience: Duration) -> bool {
    loop {
        match alive.recv_timeout(patience) {
            Ok(()) => {}
            Err(RecvTimeoutError::Disconnected) => return false,
            Err(RecvTimeoutError::Timeout) => {
                end(child, true);
                return true;
            }
        }
    }
}

/// Waits for the end of the program, which is forced if nobody reads on, and gives its status in words.
fn end(child: &Mutex<Child>, force: bool) -> String {
    let mut child = child.lock().expect("no thread panics with the lock");
    if force {
        // A program that has ended by itself cannot be ended again.
        let _ = child.kill();
    }
    child.wait().map_or_else(|error| error.to_string(), |status| status.to_string())
}
