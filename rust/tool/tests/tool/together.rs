// SPDX-License-Identifier: MIT
//! Several runs at once, and runs that are killed: every frame that was given
//! out has a counter of its own, and no picture is given out twice.

use super::folder::{done, Folder};
use sframe::{read_header, Metadata, Refusal, Store, StoreView};
use std::collections::BTreeSet;
use std::thread;
use std::time::Instant;

/// The counter of a frame that opens at the other end, where nothing was opened
/// before.
fn counter(doctor: &[u8], frame: &[u8]) -> u64 {
    let plaintext = Store::over(&mut doctor.to_vec()).open_to_vec(frame, Metadata::NONE);
    assert_eq!(plaintext.as_deref(), Ok(&b"a picture"[..]));
    read_header(frame).expect("a header").ctr.0
}

/// A frame. A run that waits for the others for long says so.
fn sealed(folder: &Folder) -> Vec<u8> {
    let line = "seal ward --kid 200 --in picture";
    let mut output = folder.run(line);
    if output.stderr.starts_with(b"sframe: waiting for") {
        output.stderr.clear();
    }
    done(line, output)
}

#[test]
fn many_at_once() {
    const THREADS: usize = 8;
    const RUNS: usize = 12;
    let folder = Folder::with_stores("together", 4);
    folder.write("picture", b"a picture");
    let doctor = folder.read("doctor");
    let counters: BTreeSet<u64> = thread::scope(|scope| {
        let threads: Vec<_> = (0..THREADS)
            .map(|_| {
                scope.spawn(|| {
                    let seal = |_| sealed(&folder);
                    (0..RUNS).map(seal).collect::<Vec<_>>()
                })
            })
            .collect();
        let frames = threads
            .into_iter()
            .flat_map(|thread| thread.join().unwrap());
        frames.map(|frame| counter(&doctor, &frame)).collect()
    });
    assert!(counters.into_iter().eq(0..(THREADS * RUNS) as u64));
}

/// The time after which a run is killed sweeps over the length of a run and as
/// much again; further where the machine has become so slow that no run ends.
#[test]
fn killed_at_any_time() {
    const RUNS: u32 = 100;
    let folder = Folder::with_stores("killed", 4);
    folder.write("picture", b"a picture");
    let doctor = folder.read("doctor");
    let mut last = None;
    let mut whole_run = || {
        let start = Instant::now();
        let frame = folder.done("seal ward --kid 200 --in picture");
        let time = start.elapsed();
        last = Some(counter(&doctor, &frame));
        time
    };
    let mut longest = 2 * whole_run().min(whole_run()).min(whole_run());

    let (mut given_out, mut killed) = (0, 0);
    for _sweep in 0..6 {
        for run in 0..RUNS {
            let mut child = folder
                .command("seal ward --kid 200 --in picture")
                .spawn()
                .expect("the tool starts");
            thread::sleep(longest * run / RUNS);
            // It may have ended by itself.
            let _ = child.kill();
            let output = child.wait_with_output().expect("the tool ends");
            if output.stdout.is_empty() {
                killed += 1;
            } else {
                let counter = counter(&doctor, &output.stdout);
                assert!(last < Some(counter), "{counter} after {last:?}");
                last = Some(counter);
                given_out += 1;
            }
            let store = folder.read("ward");
            let records = StoreView::over(&store).records().expect("a sound store");
            assert!(last < Some(records[0].next.0));
        }
        if given_out > 0 && killed > 0 {
            break;
        }
        longest *= 2;
    }
    assert!(
        given_out > 0 && killed > 0,
        "{given_out} frames given out, {killed} runs without one"
    );
    // No lock outlasts its run.
    let frame = folder.done("seal ward --kid 200 --in picture");
    assert!(last < Some(counter(&doctor, &frame)));
}

/// Several runs open the same frames at once: each is given out by one of them.
#[test]
fn many_openings_at_once() {
    const THREADS: usize = 8;
    const FRAMES: usize = 6;
    let folder = Folder::with_stores("opening", 4);
    folder.write("picture", b"a picture");
    for frame in 0..FRAMES {
        folder.done(&format!("seal ward --kid 200 --in picture --out {frame}"));
    }
    let opened: usize = thread::scope(|scope| {
        let threads: Vec<_> = (0..THREADS)
            .map(|thread| {
                let folder = &folder;
                scope.spawn(move || {
                    let order = (0..FRAMES).map(|i| (i + thread) % FRAMES);
                    order.filter(|frame| given_out(folder, *frame)).count()
                })
            })
            .collect();
        threads.into_iter().map(|t| t.join().unwrap()).sum()
    });
    assert_eq!(opened, FRAMES);
    let report = folder.done("report doctor --kid 200");
    assert_eq!(report, b"6 of the last 64 counters opened\n");
}

/// Whether a run gives the picture of a frame out; else it was opened before.
fn given_out(folder: &Folder, frame: usize) -> bool {
    let output = folder.run(&format!("open doctor --in {frame}"));
    match output.status.code() {
        Some(0) => assert_eq!(output.stdout, b"a picture"),
        status => {
            assert_eq!(status, Some(Refusal::AlreadyOpened.number() as i32));
            assert_eq!(output.stdout, b"");
        }
    }
    output.status.success()
}

/// Runs that open are killed at any time, as above: what was given out is not
/// given out again, and the store stays sound.
#[test]
fn openings_killed_at_any_time() {
    const RUNS: u32 = 60;
    let folder = Folder::with_stores("opening-killed", 4);
    folder.write("picture", b"a picture");
    folder.anew("seal ward --kid 200 --in picture --out 0");
    let start = Instant::now();
    assert!(given_out(&folder, 0));
    let mut longest = 2 * start.elapsed();

    let (mut shown, mut killed) = (0, 0);
    for _sweep in 0..6 {
        for run in 0..RUNS {
            folder.anew("seal ward --kid 200 --in picture --out 0");
            let mut child = folder
                .command("open doctor --in 0")
                .spawn()
                .expect("the tool starts");
            thread::sleep(longest * run / RUNS);
            // It may have ended by itself.
            let _ = child.kill();
            let output = child.wait_with_output().expect("the tool ends");
            let store = folder.read("doctor");
            assert_eq!(StoreView::over(&store).check(), Ok(()));
            if output.stdout.is_empty() {
                killed += 1;
                // The picture may be lost, and is given out once at most.
                given_out(&folder, 0);
            } else {
                assert_eq!(output.stdout, b"a picture");
                shown += 1;
            }
            assert!(!given_out(&folder, 0));
        }
        if shown > 0 && killed > 0 {
            break;
        }
        longest *= 2;
    }
    assert!(
        shown > 0 && killed > 0,
        "{shown} pictures given out, {killed} runs without one"
    );
}
