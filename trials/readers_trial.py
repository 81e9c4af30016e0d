#!/usr/bin/env python3
"""Has sixteen readers look at local books beside a writer that publishes: readers_trial.py [--seconds N].

It plays made days of 16 banks and two pairs for so many seconds, 600 where none are given. Of each day the plain host first tells every
local book behind each number of entries. Then a feed publishes the day's entries on one thread, 1 to 16 at a time, while sixteen readers,
each on a thread of its own, look at one local book after another until they have seen all entries. A look is wrong where it finds fewer
entries than the reader's look before, or another book than the plain host's behind so many entries. It prints how many days and looks
there were and how many looks were wrong, and ends with status 1 where one was.

The program is made of the source below and of this repository's crates, in a folder of its own, and `rt try` runs it with run-time
checks, without a proof.
"""
import argparse
import os
import shutil
import subprocess
import sys
import tempfile

ROOT = os.path.dirname(os.path.dirname(os.path.realpath(__file__)))
sys.path.insert(0, f"{ROOT}/tools")
sys.dont_write_bytecode = True
from sources.crates import read_crates  # noqa: E402

# What a program of readers begins with.
DAY = r"""#![tactic(auto)]

use fx_amounts::{BankId, Memory, PairId};
use fx_rules::{Entry, Session};
use market_run::run_in_order;
use pair_host::PairHost;
use std::alloc::{AllocGlobal, Global};
use std::env;
use std::process::ExitCode;
use std::sync::Wait;
use std::thread::{self, Threads, join_mut};
use std::time::{Clock, Instant};
use trial_days::trial_day;
use view_feed::{Feed, FeedReader, open_feed};

const BANKS: u8 = 16;
const PAIRS: u8 = 2;
/// How many local books there are.
const BOOKS: usize = 32;

fn bank_of(book: usize) -> BankId {
    BankId::at(book / PAIRS as usize)
}

fn pair_of(book: usize) -> PairId {
    PairId::at(book % PAIRS as usize)
}

/// A day's session, and its history.
fn made_day(alloc: Global, seed: u64, commands: u32) -> Option<(Session, Vec<Entry>)> {
    let (session, sent) = trial_day(alloc, seed, BANKS, PAIRS, 1, commands).ok()?;
    let market = PairHost::open(alloc, &session).ok()?;
    let (entries, _market) = run_in_order(alloc, &session, market, &sent).ok()?;
    Some((session, entries))
}

fn number(words: &mut env::Args) -> Option<u64> {
    let word = words.next()?;
    word.as_str().parse::<u64>().ok()
}
"""

TRIAL = r"""
use flat_host::FlatHost;
use fx_rules::{Market, Outcome};
use trial_days::is_same;

/// A day's history, and the plain host's local books behind each number of its entries.
#[derive(Drop)]
struct Day {
    entries: Vec<Entry>,
    books: Vec<Outcome>,
}

fn add_books(host: &FlatHost, books: &mut Vec<Outcome>) -> Result<(), Memory> {
    for book in 0..BOOKS {
        books.push(host.depth(bank_of(book), pair_of(book))?)?;
    }
    Ok(())
}

fn told_day(alloc: Global, session: &Session, entries: Vec<Entry>) -> Result<Day, Memory> {
    let mut host = FlatHost::open(alloc, session)?;
    let mut books = Vec::new(alloc);
    add_books(&host, &mut books)?;
    for entry in &entries {
        host.follow(entry)?;
        add_books(&host, &mut books)?;
    }
    Ok(Day { entries, books })
}

/// A reader with what came of its looks.
#[derive(Drop)]
struct Seat {
    reader: FeedReader,
    looks: u64,
    wrong: u64,
}

impl Seat {
    /// Looks until all is seen, and then at each local book once more.
    fn look_on<R: Wait>(&mut self, rt: &R, day: &Day, first: usize) {
        let all = day.entries.len() as u64;
        let mut last = 0u64;
        let mut left = BOOKS;
        let mut turn = first;
        for _ in rt.forever() {
            let book = turn % BOOKS;
            let Ok((count, seen)) = self.reader.book(bank_of(book), pair_of(book)) else {
                self.wrong += 1;
                return;
            };
            self.looks += 1;
            if count < last || count > all || !is_same(&seen, &day.books[count as usize * BOOKS + book]) {
                self.wrong += 1;
                return;
            }
            last = count;
            turn += 1;
            if count == all {
                left -= 1;
            }
            if left == 0 {
                return;
            }
        }
    }
}

/// Publishes a day's entries, 1 to 16 at a time.
fn publish<R: Wait>(rt: &R, feed: &mut Feed, entries: &[Entry], seed: u64) -> Result<(), Memory> {
    let mut draw = seed;
    let mut left = 1u64;
    for entry in entries {
        feed.append(entry)?;
        left -= 1;
        if left == 0 {
            let _told = feed.publish(rt)?;
            draw = draw.wrapping_mul(6364136223846793005).wrapping_add(1442695040888963407);
            left = 1 + (draw >> 33) % 16;
        }
    }
    let _told = feed.publish(rt)?;
    Ok(())
}

/// Has the readers look while the day is published, and answers these, how many looks they had and how many were wrong.
fn look_all<R: AllocGlobal + Threads + Wait + Sync>(
    rt: &R,
    day: &Day,
    feed: &mut Feed,
    readers: Vec<FeedReader>,
    seed: u64,
) -> Result<(Vec<FeedReader>, u64, u64), Memory> {
    let mut seats = Vec::new(rt.alloc());
    for reader in readers {
        seats.push(Seat { reader, looks: 0, wrong: 0 })?;
    }
    let (_, published) = join_mut(
        rt,
        &mut || thread::for_each_mut(rt, &mut seats, 16, &|at, seat: &mut Seat| seat.look_on(rt, day, at * 7)),
        &mut || publish(rt, feed, &day.entries, seed),
    );
    published?;
    let mut looks = 0;
    let mut wrong = 0;
    let mut back = Vec::new(rt.alloc());
    for seat in seats {
        looks += seat.looks;
        wrong += seat.wrong;
        back.push(seat.reader)?;
    }
    Ok((back, looks, wrong))
}

/// Plays a day, and answers how many looks there were and how many were wrong.
fn play<R: AllocGlobal + Threads + Wait + Sync>(rt: &R, seed: u64) -> Option<(u64, u64)> {
    let (session, entries) = made_day(rt.alloc(), seed, 300)?;
    let day = told_day(rt.alloc(), &session, entries).ok()?;
    let (mut feed, readers) = open_feed(rt.alloc(), rt, &session, 16).ok()?;
    match look_all(rt, &day, &mut feed, readers, seed) {
        Ok((readers, looks, wrong)) => {
            feed.close(rt, readers);
            Some((looks, wrong))
        }
        Err(_) => {
            feed.close(rt, Vec::new(rt.alloc()));
            None
        }
    }
}

fn main(rt: HostRuntime) -> ExitCode {
    let Ok(mut words) = env::args(&rt) else {
        return ExitCode::from(2);
    };
    let _name = words.next();
    let Some(seconds) = number(&mut words) else {
        return ExitCode::from(2);
    };
    let Ok(start) = Instant::now(&rt) else {
        return ExitCode::from(2);
    };
    let mut days = 0u64;
    let mut looks = 0;
    let mut wrong = 0;
    for _ in rt.forever() {
        let Ok(passed) = start.elapsed(&rt) else {
            return ExitCode::from(2);
        };
        if passed.as_secs() >= seconds {
            break;
        }
        days += 1;
        let Some((its, bad)) = play(&rt, days) else {
            return ExitCode::from(6);
        };
        looks += its;
        wrong += bad;
    }
    let _ = println!(rt; "{days} days, {looks} looks, {wrong} wrong");
    if wrong == 0 { ExitCode::SUCCESS } else { ExitCode::from(1) }
}
"""

NAME = "readers"
BELOW = ["fx_amounts", "fx_rules", "flat_host", "market_run", "pair_host", "trial_days", "view_feed"]


def needed(names, crates):
    """These crates of the repository, and those that they stand on."""
    wanted, queue = set(), [name for name in names if name in crates]
    while queue:
        name = queue.pop()
        if name not in wanted:
            wanted.add(name)
            queue += [below for below in crates[name] if below in crates]
    return wanted


def play(source, words, seconds):
    """Has a program of this source run for at most so many seconds, and answers its status and what it wrote."""
    crates = read_crates()
    with tempfile.TemporaryDirectory() as folder:
        wanted = needed(BELOW, crates)
        with open(f"{folder}/crates.txt", "w", encoding="utf-8") as file:
            file.writelines(f"{name}: {' '.join(crates[name])}\n" for name in crates if name in wanted)
            file.write(f"{NAME}: {' '.join(BELOW)}\n")
        shutil.copy(f"{ROOT}/HANDLES", folder)
        for name in wanted:
            shutil.copytree(f"{ROOT}/crates/{name}", f"{folder}/crates/{name}", ignore=shutil.ignore_patterns("out", "must-fail"))
        os.makedirs(f"{folder}/crates/{NAME}/src")
        with open(f"{folder}/crates/{NAME}/src/main.rt", "w", encoding="utf-8") as file:
            file.write(source)
        ran = subprocess.run(["rt", "try", "--seconds", str(seconds), "--", *map(str, words)], cwd=f"{folder}/crates/{NAME}", stdout=subprocess.PIPE, stderr=subprocess.PIPE, text=True)
    if "status=" not in ran.stderr:
        sys.exit(f"rt try gave no answer:\n{ran.stdout}{ran.stderr}")
    return ran.returncode, ran.stdout


def main():
    words = argparse.ArgumentParser(description=__doc__, formatter_class=argparse.RawDescriptionHelpFormatter)
    words.add_argument("--seconds", type=int, default=600)
    seconds = words.parse_args().seconds
    status, told = play(DAY + TRIAL, [seconds], seconds + 600)
    print(told, end="")
    sys.exit(status)


if __name__ == "__main__":
    main()
