//! Steps and look-ups of the yardstick's book with so many sessions alive: the measure for bench/book, whose program
//! does the same. Each figure is the least of some rounds, in nanoseconds of processor time.

#[allow(dead_code)]
mod book;

use book::{Book, Refusal, Stream};
use std::hint::black_box;
use std::sync::Mutex;

const ROUNDS: u64 = 3;
const TURNS: u64 = 20_000;
/// So many of the sessions have their turn, or all.
const SOME: u64 = 16;
/// A connection has so many pairs of channels.
const CHANNELS: u64 = 128;

unsafe extern "C" {
    fn clock_gettime(clock: i32, time: *mut [i64; 2]) -> i32;
}

/// The nanoseconds that the thread has run.
fn now() -> u64 {
    const THREAD: i32 = 3;
    let mut time = [0; 2];
    unsafe { clock_gettime(THREAD, &mut time) };
    time[0] as u64 * 1_000_000_000 + time[1] as u64
}

fn spent(work: impl FnOnce() -> Result<(), Refusal>) -> u64 {
    let start = now();
    work().expect("each step is accepted");
    now() - start
}

/// Whose turn it is: so many of the sessions, far from each other by an odd number, have theirs.
#[derive(Clone, Copy)]
struct Walk {
    among: u64,
    alive: u64,
}

impl Walk {
    fn at(self, turn: u64) -> u64 {
        (turn.wrapping_mul(2_654_435_761) & (self.among - 1)) * ((self.alive / self.among - 1) | 1)
    }
}

fn set_up(book: &mut Book, session: u64) -> Result<(), Refusal> {
    let conn = session / CHANNELS;
    book.open(session, u128::from(session), conn, 0)?;
    book.hold_rate(session, session, 80_000)?;
    book.hold_channels(session, session, conn, None)?;
    book.commit(session, session, Stream::new(0, 1))
}

fn filled(alive: u64) -> Book {
    let mut book = Book::new();
    for session in 0..alive {
        set_up(&mut book, session).expect("there is room");
    }
    book
}

fn chains(alive: u64) -> u64 {
    let last = alive - 1;
    let mut book = filled(last);
    spent(|| {
        for _ in 0..TURNS {
            set_up(&mut book, last)?;
            book.end(last)?;
        }
        Ok(())
    })
}

fn renewals(walk: Walk) -> u64 {
    let mut book = filled(walk.alive);
    spent(|| {
        for turn in 0..TURNS {
            book.touch(walk.at(turn), turn + 1)?;
        }
        Ok(())
    })
}

fn numbers(walk: Walk) -> u64 {
    let book = filled(walk.alive);
    spent(|| {
        for turn in 0..TURNS {
            black_box(book.expires(walk.at(turn)).ok_or(Refusal::NoSession)?);
        }
        Ok(())
    })
}

fn ids(walk: Walk) -> u64 {
    let book = filled(walk.alive);
    spent(|| {
        for turn in 0..TURNS {
            let session = book.session_of(u128::from(walk.at(turn)))?;
            black_box(book.expires(session).ok_or(Refusal::NoSession)?);
        }
        Ok(())
    })
}

fn chains_under_a_lock(alive: u64) -> u64 {
    let last = alive - 1;
    let book = Mutex::new(filled(last));
    let lock = || book.lock().expect("no thread has panicked");
    let conn = last / CHANNELS;
    spent(|| {
        for _ in 0..TURNS {
            lock().open(last, u128::from(last), conn, 0)?;
            lock().hold_rate(last, last, 80_000)?;
            lock().hold_channels(last, last, conn, None)?;
            lock().commit(last, last, Stream::new(0, 1))?;
            lock().end(last)?;
        }
        Ok(())
    })
}

fn renewals_under_a_lock(walk: Walk) -> u64 {
    let book = Mutex::new(filled(walk.alive));
    spent(|| {
        for turn in 0..TURNS {
            let mut book = book.lock().expect("no thread has panicked");
            book.touch(walk.at(turn), turn + 1)?;
        }
        Ok(())
    })
}

fn least<T: Copy>(round: fn(T) -> u64, of: T) -> u64 {
    (0..ROUNDS).map(|_| round(of)).min().unwrap_or(0)
}

fn main() {
    for alive in [16, 128, 1024, 4096] {
        let [some, all] = [SOME, alive].map(|among| Walk { among, alive });
        let of = |walk| {
            let (renewal, number, id) = (least(renewals, walk), least(numbers, walk), least(ids, walk));
            format!("{renewal} {number} {id}")
        };
        println!("kept {alive} {TURNS} {} {} {}", least(chains, alive), of(some), of(all));
        let [renewal, renewal_of_all] = [some, all].map(|walk| least(renewals_under_a_lock, walk));
        println!("lock {alive} {TURNS} {} {renewal} {renewal_of_all}", least(chains_under_a_lock, alive));
    }
}
