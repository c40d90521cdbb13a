//! Does many pieces of work on all cores, and writes what they print in their order.
//!
//! A piece that needs much memory can wait until its turn, so that only one has it at a time.
//!
//! Each piece sends its output in parts through a short channel, so a piece whose turn has not come waits when that is full: memory is
//! bounded, and a single piece may print more than memory holds.

use std::io::{self, Write};
use std::num::NonZeroUsize;
use std::sync::atomic::{AtomicUsize, Ordering};
use std::sync::mpsc::{sync_channel, Receiver, RecvTimeoutError, SyncSender};
use std::sync::{Condvar, Mutex, PoisonError};
use std::thread;
use std::time::Duration;

use crate::output::terminal::Progress;

/// So many bytes are sent at a time.
const PART: usize = 64 * 1024;
/// So many parts wait for their turn in each channel.
const PARTS: usize = 4;
/// So many pieces, for each core, may be begun before their turn.
const AHEAD: usize = 64;
/// A judging call needs some 350 KB of it.
const STACK: usize = 2 * 1024 * 1024;
/// So often the progress is looked at.
const GLANCE: Duration = Duration::from_millis(100);

/// A piece's number, and where it sends.
type Piece<T> = (usize, SyncSender<Sent<T>>);

enum Sent<T> {
    Part(Vec<u8>),
    Done(T),
}

/// Where a piece of work writes. An error means that nobody reads any more.
pub struct Out<'a> {
    part: Vec<u8>,
    send: &'a mut dyn FnMut(Vec<u8>) -> bool,
    number: usize,
    turn: &'a Turn,
}

impl Out<'_> {
    /// Returns when all pieces before this one are written. One piece at a time comes further.
    pub fn wait_for_turn(&self) {
        self.turn.wait(self.number);
    }
}

/// The piece whose turn it is.
struct Turn {
    number: Mutex<usize>,
    changed: Condvar,
}

impl Turn {
    fn set(&self, number: usize) {
        *self.number.lock().unwrap_or_else(PoisonError::into_inner) = number;
        self.changed.notify_all();
    }

    fn wait(&self, number: usize) {
        let turn = self.number.lock().unwrap_or_else(PoisonError::into_inner);
        let _turn = self.changed.wait_while(turn, |turn| *turn < number);
    }
}

/// When nobody writes any more, nobody has to wait.
impl Drop for Release<'_> {
    fn drop(&mut self) {
        self.0.set(usize::MAX);
    }
}

struct Release<'a>(&'a Turn);

impl Write for Out<'_> {
    fn write(&mut self, bytes: &[u8]) -> io::Result<usize> {
        self.part.extend_from_slice(bytes);
        if self.part.len() >= PART {
            self.flush()?;
        }
        Ok(bytes.len())
    }

    fn flush(&mut self) -> io::Result<()> {
        let part = std::mem::take(&mut self.part);
        if part.is_empty() || (self.send)(part) {
            return Ok(());
        }
        Err(io::ErrorKind::BrokenPipe.into())
    }
}

/// Does `work` for each number below `count`, and answers what each gave, in order. What they print goes to `sink`.
pub fn in_order<T: Send>(
    count: usize,
    sink: &mut dyn Write,
    work: impl Fn(usize, &mut Out) -> T + Sync,
) -> io::Result<Vec<T>> {
    let cores = thread::available_parallelism()
        .map_or(1, NonZeroUsize::get)
        .min(count);
    let done = AtomicUsize::new(0);
    let turn = Turn {
        number: Mutex::new(0),
        changed: Condvar::new(),
    };
    // The main thread puts the pieces out one by one, a limited number ahead of the one whose turn it is.
    let (give, take) = sync_channel::<Piece<T>>(cores * AHEAD);
    let take = Mutex::new(take);
    thread::scope(|scope| {
        for k in 0..cores {
            let begun = thread::Builder::new()
                .stack_size(STACK)
                .spawn_scoped(scope, || labour(&take, &work, &done, &turn));
            // One thread is enough, if there is not room for more.
            if k == 0 {
                begun?;
            }
        }
        collect(count, give, sink, &done, &turn)
    })
}

/// One core: takes pieces until there are none.
fn labour<T>(
    take: &Mutex<Receiver<Piece<T>>>,
    work: &impl Fn(usize, &mut Out) -> T,
    done: &AtomicUsize,
    turn: &Turn,
) {
    loop {
        let next = match take.lock() {
            Ok(take) => take.recv(),
            Err(_) => return,
        };
        let (k, sender) = match next {
            Ok(next) => next,
            Err(_) => return,
        };
        let mut send = |part| sender.send(Sent::Part(part)).is_ok();
        let mut out = Out {
            part: Vec::new(),
            send: &mut send,
            number: k,
            turn,
        };
        let given = work(k, &mut out);
        let sent = out.flush();
        done.fetch_add(1, Ordering::Relaxed);
        if sent.is_err() || sender.send(Sent::Done(given)).is_err() {
            return;
        }
    }
}

/// The main thread: puts pieces out, and writes what they print, each in its turn.
fn collect<T>(
    count: usize,
    give: SyncSender<Piece<T>>,
    sink: &mut dyn Write,
    done: &AtomicUsize,
    turn: &Turn,
) -> io::Result<Vec<T>> {
    let _release = Release(turn);
    let mut progress = Progress::new();
    let mut turns = std::collections::VecDeque::new();
    let mut given = Vec::new();
    let mut next = 0;
    while given.len() < count {
        while next < count {
            let (sender, receiver) = sync_channel(PARTS);
            if give.try_send((next, sender)).is_err() {
                break;
            }
            turns.push_back(receiver);
            next += 1;
        }
        let receiver: Receiver<Sent<T>> = match turns.pop_front() {
            Some(receiver) => receiver,
            // The list of pieces was full for a moment.
            None => continue,
        };
        turn.set(given.len());
        given.push(written(receiver, sink, &mut progress, done, count)?);
    }
    progress.clear();
    Ok(given)
}

/// Writes all of one piece.
fn written<T>(
    receiver: Receiver<Sent<T>>,
    sink: &mut dyn Write,
    progress: &mut Progress,
    done: &AtomicUsize,
    count: usize,
) -> io::Result<T> {
    loop {
        match receiver.recv_timeout(GLANCE) {
            Ok(Sent::Part(part)) => {
                progress.give_way();
                sink.write_all(&part)?;
                progress.show_beside(done.load(Ordering::Relaxed), count);
            }
            Ok(Sent::Done(given)) => return Ok(given),
            Err(RecvTimeoutError::Timeout) => progress.show(done.load(Ordering::Relaxed), count),
            Err(RecvTimeoutError::Disconnected) => return Err(io::ErrorKind::BrokenPipe.into()),
        }
    }
}

#[cfg(test)]
mod tests {
    use super::*;

    #[test]
    fn the_order_is_kept() {
        let mut sink = Vec::new();
        let given = in_order(500, &mut sink, |k, out| {
            thread::sleep(Duration::from_micros((k * 7919 % 97) as u64));
            writeln!(out, "{k}").unwrap();
            k * 2
        });
        let expected: Vec<String> = (0..500).map(|k| format!("{k}\n")).collect();
        assert_eq!(String::from_utf8(sink).unwrap(), expected.concat());
        assert_eq!(given.unwrap(), (0..500).map(|k| k * 2).collect::<Vec<_>>());
    }

    #[test]
    fn much_output_of_few_pieces() {
        let mut sink = Vec::new();
        let given = in_order(3, &mut sink, |k, out| {
            (0..100_000).try_for_each(|_| out.write_all(&[b'0' + k as u8; 10]))
        });
        assert!(given.unwrap().iter().all(Result::is_ok));
        assert_eq!(sink.len(), 3_000_000);
        assert!(sink.windows(2).all(|two| two[0] <= two[1]));
    }

    #[test]
    fn one_at_a_time() {
        let inside = AtomicUsize::new(0);
        let given = in_order(100, &mut Vec::new(), |k, out| {
            if k % 3 != 0 {
                return 0;
            }
            out.wait_for_turn();
            let others = inside.fetch_add(1, Ordering::SeqCst);
            out.write_all(&[b'x'; 100_000]).unwrap();
            thread::sleep(Duration::from_micros(100));
            inside.fetch_sub(1, Ordering::SeqCst);
            others
        });
        assert!(given.unwrap().iter().all(|others| *others == 0));
    }

    #[test]
    fn nothing_to_do() {
        let given = in_order(0, &mut Vec::new(), |k, _| k);
        assert_eq!(given.unwrap(), Vec::<usize>::new());
    }

    struct Closed;

    impl Write for Closed {
        fn write(&mut self, _: &[u8]) -> io::Result<usize> {
            Err(io::ErrorKind::BrokenPipe.into())
        }
        fn flush(&mut self) -> io::Result<()> {
            Ok(())
        }
    }

    #[test]
    fn a_closed_sink_ends_the_work() {
        let ended = in_order(1_000, &mut Closed, |k, out| {
            if k % 2 == 1 {
                out.wait_for_turn();
            }
            while out.write_all(&[b'x'; 1_000]).is_ok() {}
        });
        assert_eq!(ended.unwrap_err().kind(), io::ErrorKind::BrokenPipe);
    }
}
