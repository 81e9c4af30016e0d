#!/usr/bin/env python3
"""What a look at a local book costs while a feed publishes, and while it stands still: bench/readers.py [READERS..].

With 1, 4 and 16 readers, or with these numbers of them: a feed of a made day of 16 banks and two pairs has published the first 10,000 of
12,000 entries. Each reader, on a thread of its own, looks at one local book after another, 5,000 times (still); then until the feed has
published the others, 16 at a time (publishing); then 5,000 times again (still again). Printed are how many looks there were, and the
nanoseconds that half of them and 99 of 100 took at most. With more readers than processors some looks are interrupted; half of the looks tell more
then than the rest.

The program is run by `rt try` with run-time checks, which make each look slower, with publishing and without.
"""
import argparse
import os
import sys

ROOT = os.path.dirname(os.path.dirname(os.path.realpath(__file__)))
sys.path.insert(0, f"{ROOT}/trials")
sys.dont_write_bytecode = True
from readers_trial import DAY, play  # noqa: E402

PROGRAM = r"""
/// How long looks took, in nanoseconds.
#[derive(Drop)]
struct Looks {
    half: u64,
    most: u64,
    count: usize,
}

/// A reader with how long its looks took.
#[derive(Drop)]
struct Seat {
    reader: FeedReader,
    took: Vec<u64>,
    failed: bool,
}

impl Seat {
    /// Looks so many times, or fewer where all entries are seen before.
    fn look<R: Clock>(&mut self, rt: &R, looks: usize, all: u64, first: usize) -> Option<()> {
        for turn in 0..looks {
            let book = (first + turn) % BOOKS;
            let start = Instant::now(rt).ok()?;
            let (count, _seen) = self.reader.book(bank_of(book), pair_of(book)).ok()?;
            let took = start.elapsed(rt).ok()?;
            if count == all {
                break;
            }
            self.took.push(took.as_nanos() as u64).ok()?;
        }
        Some(())
    }
}

fn publish<R: Wait>(rt: &R, feed: &mut Feed, entries: &[Entry]) -> Result<(), Memory> {
    for piece in entries.chunks(16) {
        for entry in piece {
            feed.append(entry)?;
        }
        let _told = feed.publish(rt)?;
    }
    Ok(())
}

/// How long the looks of all readers took while these entries were published.
fn measure<R: AllocGlobal + Clock + Threads + Wait + Sync>(
    rt: &R,
    feed: &mut Feed,
    entries: &[Entry],
    seats: &mut Vec<Seat>,
    looks: usize,
    all: u64,
) -> Option<Looks> {
    let readers = seats.len();
    let (_, published) = join_mut(
        rt,
        &mut || {
            thread::for_each_mut(rt, seats, readers, &|at, seat: &mut Seat| {
                let looked = seat.look(rt, looks, all, at * 7);
                seat.failed = seat.failed || looked.is_none();
            })
        },
        &mut || publish(rt, feed, entries),
    );
    published.ok()?;
    let mut took = Vec::new(rt.alloc());
    for seat in seats.iter_mut() {
        if seat.failed {
            return None;
        }
        took.extend_from_slice(seat.took.as_slice()).ok()?;
        seat.took.clear();
    }
    took.sort_unstable();
    let count = took.len();
    if count == 0 {
        return None;
    }
    Some(Looks { half: took[count / 2], most: took[count * 99 / 100], count })
}

fn measure_all<R: AllocGlobal + Clock + Threads + Wait + Sync>(
    rt: &R,
    feed: &mut Feed,
    seats: &mut Vec<Seat>,
    entries: &[Entry],
) -> Option<(Looks, Looks, Looks)> {
    let all = entries.len() as u64;
    let (front, rest) = entries.split_at(10000);
    publish(rt, feed, front).ok()?;
    let still = measure(rt, feed, &[], seats, 5000, all)?;
    let publishing = measure(rt, feed, rest, seats, 1000000000, all)?;
    let again = measure(rt, feed, &[], seats, 5000, all + 1)?;
    Some((still, publishing, again))
}

fn play<R: AllocGlobal + Clock + Threads + Wait + Sync>(rt: &R, readers: u32) -> Option<(Looks, Looks, Looks)> {
    let (session, entries) = made_day(rt.alloc(), 1, 12000)?;
    let (mut feed, opened) = open_feed(rt.alloc(), rt, &session, readers).ok()?;
    let mut seats = Vec::new(rt.alloc());
    for reader in opened {
        let _ = seats.push(Seat { reader, took: Vec::new(rt.alloc()), failed: false });
    }
    let measured = measure_all(rt, &mut feed, &mut seats, entries.as_slice());
    let mut back = Vec::new(rt.alloc());
    for seat in seats {
        let _ = back.push(seat.reader);
    }
    feed.close(rt, back);
    measured
}

fn main(rt: HostRuntime) -> ExitCode {
    let Ok(mut words) = env::args(&rt) else {
        return ExitCode::from(2);
    };
    let _name = words.next();
    let Some(readers) = number(&mut words) else {
        return ExitCode::from(2);
    };
    let Some((still, publishing, again)) = play(&rt, readers as u32) else {
        return ExitCode::from(6);
    };
    for (phase, looks) in [("still", &still), ("publishing", &publishing), ("still again", &again)] {
        let Looks { half, most, count } = looks;
        let _ = println!(rt; "{readers:>3} {phase:<12} {count:>9} {half:>8} {most:>9}");
    }
    ExitCode::SUCCESS
}
"""


def main():
    words = argparse.ArgumentParser(description=__doc__, formatter_class=argparse.RawDescriptionHelpFormatter)
    words.add_argument("readers", type=int, nargs="*", default=[1, 4, 16])
    print("readers, phase, looks, ns at most: half of them, 99 of 100")
    for readers in words.parse_args().readers:
        status, told = play(DAY + PROGRAM, [readers], 600)
        print(told, end="", flush=True)
        if status:
            sys.exit(status)


if __name__ == "__main__":
    main()
