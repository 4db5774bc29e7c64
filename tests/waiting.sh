#!/usr/bin/env bash
# How threads wait: tests in Rattle, as modules of waiting.rt and scheduler.rt of crates/mwc_gather
# in a copy of the crates. They run without a proof, which would take as long as the crate's own.
. "$(dirname "$0")/common.sh"

needs rt waiting || exit 0
mkdir "$temp/crates"
cp "$top/crates.txt" "$top/HANDLES" "$temp/"
for crate in "$top"/crates/*; do
    crate=$(basename "$crate")
    mkdir -p "$temp/crates/$crate/out"
    for part in src specs proofs out/rlib; do
        [ ! -d "$top/crates/$crate/$part" ] || cp -rp "$top/crates/$crate/$part" "$temp/crates/$crate/$part"
    done
done
own=$temp/crates/mwc_gather
mkdir "$own/src/waiting" "$own/src/scheduler"
cat >"$own/src/waiting/tests.rt" <<'END'
//! Tests of how often a thread looks before it sleeps, and of what wakes it.

use super::{Backoff, Waker, WakerPair, Wakers};
use crate::guarded::Guarded;
use crate::job::Job;
use crate::send::put;
use crate::worker_handle::WorkerHandle;
use council_game::{Game, Gate};
use mwc_pipe::{Word, ring};
use std::alloc::Global;
use std::process::Abort;
use std::sync::Wait;
use std::sync::atomic::{AtomicBool, Ordering};
use std::{hint, thread};

/// Returns a game of members of weight 1.
pub(crate) fn equal_game<A: Abort>(rt: &A, alloc: Global, members: u8, quota: u64) -> Game {
    let mut names = Vec::new(alloc);
    let mut weights = Vec::new(alloc);
    for member in 0..members {
        names.push(format!(in alloc; "{member}").expect(rt, "a name")).expect(rt, "room");
        weights.push(1u64).expect(rt, "room");
    }
    Game::new(alloc, None, names, weights, quota).expect(rt, "a game")
}

/// Whether the thread sleeps, or is about to.
pub(crate) fn is_asleep(waker: &Waker) -> bool {
    waker.asleep.load(Ordering::SeqCst)
}

/// Waits until the thread is about to sleep, and returns how often it looked again before.
pub(crate) fn looks_before_sleep<R: Wait>(rt: &R, backoff: &mut Backoff, waker: &Waker) -> u32 {
    for looks in 0..4_000 {
        backoff.wait(rt, waker);
        if is_asleep(waker) {
            return looks;
        }
    }
    4_000
}

#[test]
fn a_thread_sleeps_after_2048_looks(rt: HostRuntime) {
    let waker = Waker::new();
    let mut backoff = Backoff::new();
    assert!(rt; looks_before_sleep(&rt, &mut backoff, &waker) == 2_048);
    // it sleeps until the time is up, and then looks once before it sleeps again
    backoff.wait(&rt, &waker);
    assert!(rt; !is_asleep(&waker));
    assert!(rt; looks_before_sleep(&rt, &mut backoff, &waker) == 0);
}

#[test]
fn sleeps_make_the_looks_fewer_and_finds_make_them_more(rt: HostRuntime) {
    let waker = Waker::new();
    let mut backoff = Backoff::new();
    for wanted in [2_048, 1_792, 1_568] {
        assert!(rt; looks_before_sleep(&rt, &mut backoff, &waker) == wanted);
        backoff.wait(&rt, &waker);
        backoff.renew(&waker);
    }
    // each takes a millisecond, since nobody wakes it: a test has only a minute
    for _ in 0..200 {
        looks_before_sleep(&rt, &mut backoff, &waker);
        backoff.wait(&rt, &waker);
    }
    backoff.renew(&waker);
    // nothing was looked for in between: it looks as often as before
    backoff.renew(&waker);
    for wanted in [32, 64, 128, 256, 512, 1_024, 2_048, 2_048] {
        assert!(rt; looks_before_sleep(&rt, &mut backoff, &waker) == wanted);
        backoff.renew(&waker);
        assert!(rt; !is_asleep(&waker));
    }
}

#[test]
fn a_thread_that_is_about_to_sleep_is_woken(rt: HostRuntime) {
    let waker = Waker::new();
    looks_before_sleep(&rt, &mut Backoff::new(), &waker);
    waker.wake();
    assert!(rt; !is_asleep(&waker));
    // without the wake this would never return
    waker.parker.park(&rt);
}

#[test]
fn words_that_were_put_in_wake_the_other_side(rt: HostRuntime) {
    let (mut out, _words) = ring(rt.alloc(), 2).expect(&rt, "a ring");
    let wakers = Wakers::new();
    looks_before_sleep(&rt, &mut Backoff::new(), &wakers.gatherer);
    looks_before_sleep(&rt, &mut Backoff::new(), &wakers.workers[3]);
    let pair = wakers.pair(3);
    put(&rt, &mut out, Word::Open(0), pair);
    assert!(rt; !is_asleep(&wakers.workers[3]) && is_asleep(&wakers.gatherer));
    // the same, as the worker sees it
    let back = WakerPair {
        own: pair.other,
        other: pair.own,
    };
    put(&rt, &mut out, Word::Done(0), back);
    assert!(rt; !is_asleep(&wakers.gatherer));
    // rows that can wait
    for wakes in [true, false, false, false, true] {
        looks_before_sleep(&rt, &mut Backoff::new(), &wakers.gatherer);
        back.other.nudge();
        assert!(rt; is_asleep(&wakers.gatherer) != wakes);
    }
}

/// Waits until the thread sleeps, or is about to.
fn wait_until_asleep(waker: &Waker) {
    while !is_asleep(waker) {
        hint::spin_loop();
    }
}

/// Waits until the thread has slept some thirty times.
pub(crate) fn wait_for_sleeps(waker: &Waker) {
    while waker.looks.load(Ordering::Relaxed) > 64 {
        hint::spin_loop();
    }
}

/// Notes whether the gatherer was awake when a worker began its slice.
#[derive(Drop)]
struct Notes<'a> {
    gatherer: &'a Waker,
    awake: AtomicBool,
}

impl Gate for Notes<'_> {
    fn pass(&self, _worker: u8, _slice: u16) {
        self.awake.store(!is_asleep(self.gatherer), Ordering::SeqCst);
    }
}

#[test]
fn a_worker_sleeps_and_wakes_the_gatherer(rt: HostRuntime) {
    let alloc = rt.alloc();
    let game = equal_game(&rt, alloc, 1, 1);
    let wakers = Wakers::new();
    let notes = Notes {
        gatherer: &wakers.gatherer,
        awake: AtomicBool::new(false),
    };
    let job = Job {
        guarded: Guarded::new(&game, &notes),
        bits: 0,
        most: 1,
    };
    let rt = &rt;
    thread::scope(thread::scope_env(), rt, |scope| {
        let mut handle = WorkerHandle::open(scope, rt, alloc, &job, 3, &wakers).expect(rt, "a worker");
        wait_until_asleep(&wakers.workers[3]);
        looks_before_sleep(rt, &mut Backoff::new(), &wakers.gatherer);
        handle.assign(rt, 0, wakers.pair(3));
        handle.dismiss(rt, wakers.pair(3));
        assert!(rt; handle.finish(rt).is_ok());
    });
    // it woke the gatherer as it took its task, before it put in a word
    assert!(rt; notes.awake.load(Ordering::SeqCst));
}
END
cat >"$own/src/scheduler/tests.rt" <<'END'
//! Tests of who sleeps, and who is woken, while slices are handed out.

use super::Scheduler;
use crate::channels::new_row;
use crate::guarded::Guarded;
use crate::job::Job;
use crate::marks::Marks;
use crate::waiting::tests::{equal_game, is_asleep, looks_before_sleep, wait_for_sleeps};
use crate::waiting::{Backoff, Waker, Wakers};
use crate::worker_handle::WorkerHandle;
use council_game::{Gate, NoGate};
use std::process::Abort;
use std::thread;

#[test]
fn a_worker_whose_ring_is_full_sleeps_until_words_are_taken(rt: HostRuntime) {
    let alloc = rt.alloc();
    // 12,870 coalitions, and a ring has room for 4,096 words
    let game = equal_game(&rt, alloc, 16, 8);
    let job = Job {
        guarded: Guarded::new(&game, &NoGate),
        bits: 0,
        most: 20_000,
    };
    let wakers = Wakers::new();
    // what the gatherer wakes here nobody else does
    let others = Wakers::new();
    let worker = &others.workers[5];
    let rt = &rt;
    thread::scope(thread::scope_env(), rt, |scope| {
        let handle = WorkerHandle::open(scope, rt, alloc, &job, 3, &wakers).expect(rt, "a worker");
        let mut handles = [handle];
        let mut scheduler = Scheduler {
            marks: Marks::new(1),
            stopped: false,
        };
        let mut row = new_row(alloc).expect(rt, "a row");
        let row = row.as_mut_slice();
        assert!(rt; !scheduler.serve(rt, &mut handles[0], 3, row, others.pair(5)));
        wait_for_sleeps(&wakers.workers[3]);
        looks_before_sleep(rt, &mut Backoff::new(), worker);
        assert!(rt; scheduler.serve(rt, &mut handles[0], 3, row, others.pair(5)));
        assert!(rt; !handles[0].idle && !is_asleep(worker));
        scheduler.read_all(rt, &job, &mut handles, row, &wakers);
        let [handle] = handles;
        assert!(rt; handle.finish(rt).is_ok());
    });
}

#[test]
fn each_worker_is_woken_by_its_own_waker(rt: HostRuntime) {
    let alloc = rt.alloc();
    let game = equal_game(&rt, alloc, 2, 1);
    let job = Job { guarded: Guarded::new(&game, &NoGate), bits: 1, most: 2 };
    // what the gatherer wakes by the others nobody else does
    let (wakers, others) = (Wakers::new(), Wakers::new());
    let workers = &others.workers[..2];
    let rt = &rt;
    thread::scope(thread::scope_env(), rt, |scope| {
        let first = WorkerHandle::open(scope, rt, alloc, &job, 0, &wakers).expect(rt, "a worker");
        let second = WorkerHandle::open(scope, rt, alloc, &job, 1, &wakers).expect(rt, "a worker");
        let mut handles = [first, second];
        let mut scheduler = Scheduler { marks: Marks::new(2), stopped: false };
        let mut row = new_row(alloc).expect(rt, "a row");
        for is_read in [false, true] {
            for worker in workers {
                looks_before_sleep(rt, &mut Backoff::new(), worker);
            }
            if is_read {
                scheduler.read_all(rt, &job, &mut handles, row.as_mut_slice(), &others);
            } else {
                scheduler.assign_first(rt, &job, &mut handles, &others);
            }
            assert!(rt; !is_asleep(&workers[0]) && !is_asleep(&workers[1]));
        }
        let [first, second] = handles;
        assert!(rt; first.finish(rt).is_ok() && second.finish(rt).is_ok());
    });
}

/// Lets a worker begin its slice when the gatherer has slept often.
#[derive(Drop)]
struct AfterSleep<'a> {
    gatherer: &'a Waker,
}

impl Gate for AfterSleep<'_> {
    fn pass(&self, _worker: u8, _slice: u16) {
        wait_for_sleeps(self.gatherer);
    }
}

#[test]
fn a_gatherer_sleeps_while_no_word_arrives(rt: HostRuntime) {
    let alloc = rt.alloc();
    let game = equal_game(&rt, alloc, 1, 1);
    let wakers = Wakers::new();
    let gate = AfterSleep {
        gatherer: &wakers.gatherer,
    };
    let job = Job {
        guarded: Guarded::new(&game, &gate),
        bits: 0,
        most: 1,
    };
    let rt = &rt;
    thread::scope(thread::scope_env(), rt, |scope| {
        let handle = WorkerHandle::open(scope, rt, alloc, &job, 0, &wakers).expect(rt, "a worker");
        let mut handles = [handle];
        let mut scheduler = Scheduler {
            marks: Marks::new(1),
            stopped: false,
        };
        let mut row = new_row(alloc).expect(rt, "a row");
        scheduler.read_all(rt, &job, &mut handles, row.as_mut_slice(), &wakers);
        let [handle] = handles;
        assert!(rt; handle.finish(rt).is_ok());
    });
}
END
printf '\n#[cfg(test)]\npub(crate) mod tests;\n' >>"$own/src/waiting.rt"
printf '\n#[cfg(test)]\nmod tests;\n' >>"$own/src/scheduler.rt"
(cd "$own" && timeout "$((10 * seconds))" rt try --test --seconds "$seconds") >"$temp/said" 2>&1 </dev/null
count=0
while read -r _ test _ end; do
    name=${test##*::}
    name="waiting: ${name//_/ }"
    if [ "$end" = ok ]; then ok "$name"; else failed "$name" "it $end"; fi
    count=$((count + 1))
done < <(grep -aE '^test (waiting|scheduler)::tests::' "$temp/said")
wanted=$(cat "$own"/src/*/tests.rt | grep -c '^#\[test\]')
if [ "$count" -eq "$wanted" ]; then
    ok "waiting: all $wanted tests ran"
else
    failed "waiting: all $wanted tests ran" "$count did: $(tail -n 1 "$temp/said")"
fi
