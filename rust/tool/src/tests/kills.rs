// SPDX-License-Identifier: MIT
//! Runs that are killed, or cut off from power, between any two steps: no
//! counter under which a frame was given out comes again, and no picture that was
//! given out is given out again.

use super::memory_disk::{MemoryDisk, Unsynced};
use crate::arguments::{Command, Streams};
use crate::commands;
use crate::failure::Failure;
use sframe::{read_header, Ctr, Kid, Refusal, Role, StoreView, MAX_RECORDS, RECORD};
use std::ffi::OsString;
use std::fs;
use std::path::{Path, PathBuf};
use toolkit::disk::{Disk, RealDisk, PRIVATE};
use toolkit::fault::Fault;
use toolkit::output::Output;
use toolkit::place::Place;

const KID: Kid = Kid(200);

/// A key that others cannot read, so that no run warns of it.
fn write_key(path: &Path) {
    let mut file = RealDisk.create(path, PRIVATE).unwrap();
    RealDisk.write(&mut file, &[7; 16]).unwrap();
}

/// What can be left after a run was stopped: first that of a killed run.
const RESTARTS: [(Unsynced, Unsynced); 4] = [
    (Unsynced::Kept, Unsynced::Kept),
    (Unsynced::Kept, Unsynced::Lost),
    (Unsynced::Lost, Unsynced::Kept),
    (Unsynced::Lost, Unsynced::Lost),
];

/// A folder with the inputs; stores are on a [`MemoryDisk`], only their locks
/// are here.
struct Setup {
    folder: PathBuf,
    disk: MemoryDisk,
}

impl Setup {
    /// A store that sends under [`KID`].
    fn new(name: &str) -> Self {
        Self::with(name, Role::Sending)
    }

    fn with(name: &str, role: Role) -> Self {
        let name = format!("sframe-kills-{}-{name}", std::process::id());
        let folder = std::env::temp_dir().join(name);
        // An earlier process may have had the same number.
        let _ = fs::remove_dir_all(&folder);
        fs::create_dir_all(&folder).unwrap();
        write_key(&folder.join("key"));
        fs::write(folder.join("picture"), b"a picture").unwrap();

        let mut setup = Setup {
            folder,
            disk: MemoryDisk::default(),
        };
        let mut disk = setup.disk.clone();
        setup.run(&mut disk, setup.make()).unwrap();
        setup.run(&mut disk, setup.add_for(role, KID)).unwrap();
        setup.disk = disk;
        setup
    }

    /// A store that receives under [`KID`]. So many frames to it are in files
    /// that have their numbers as names.
    fn receiving(name: &str, frames: usize) -> Self {
        let sender = Setup::new(&format!("{name}-sender"));
        let setup = Setup::with(name, Role::Receiving);
        let mut disk = sender.disk.clone();
        for number in 0..frames {
            let frame = sender.run(&mut disk, sender.seal()).unwrap();
            fs::write(setup.frame(number), frame).unwrap();
        }
        setup
    }

    fn frame(&self, number: usize) -> PathBuf {
        self.folder.join(number.to_string())
    }

    fn store(&self) -> PathBuf {
        self.folder.join("store")
    }

    fn make(&self) -> Command {
        Command::Make {
            store: self.store(),
            keys: 2,
            wait: None,
        }
    }

    fn add(&self, kid: Kid) -> Command {
        self.add_for(Role::Sending, kid)
    }

    fn add_for(&self, role: Role, kid: Kid) -> Command {
        Command::Add {
            store: self.store(),
            role,
            kid,
            suite: 4,
            key: Place::File(self.folder.join("key")),
            hex: false,
            wait: None,
        }
    }

    fn seal(&self) -> Command {
        Command::Seal {
            store: self.store(),
            kid: KID,
            offset: 0,
            streams: Streams {
                input: Place::File(self.folder.join("picture")),
                output: Output::new(None, false),
                metadata: None,
                hex: false,
            },
            log: None,
            wait: None,
        }
    }

    /// Seals into a file.
    fn seal_to(&self, path: &Path, force: bool) -> Command {
        let mut command = self.seal();
        if let Command::Seal { streams, .. } = &mut command {
            streams.output = Output::new(Some(Place::File(path.into())), force);
        }
        command
    }

    /// Seals into a file, in pieces.
    fn seal_pieces_to(&self, path: &Path) -> Command {
        let (store, picture) = (self.store(), self.folder.join("picture"));
        let words = ["seal-pieces", "--kid", "200", "--in"].map(OsString::from);
        let paths = [picture.into(), "--out".into(), path.into(), store.into()];
        Command::parse(words.into_iter().chain(paths)).unwrap()
    }

    fn open(&self, number: usize) -> Command {
        Command::Open {
            store: self.store(),
            streams: Streams {
                input: Place::File(self.frame(number)),
                output: Output::new(None, false),
                metadata: None,
                hex: false,
            },
            wait: None,
        }
    }

    /// Whether the picture of a frame is given out; else it was opened before.
    #[track_caller]
    fn given_out(&self, disk: &mut MemoryDisk, number: usize) -> bool {
        match self.run(disk, self.open(number)) {
            Ok(picture) => {
                assert_eq!(picture, b"a picture");
                true
            }
            Err(Failure::Refused(Refusal::AlreadyOpened)) => false,
            Err(other) => panic!("{other}"),
        }
    }

    fn log(&self) -> PathBuf {
        self.folder.join("log")
    }

    fn seal_logged(&self) -> Command {
        match self.seal() {
            Command::Seal {
                store,
                kid,
                offset,
                streams,
                ..
            } => Command::Seal {
                store,
                kid,
                offset,
                streams,
                log: Some(self.log()),
                wait: None,
            },
            other => other,
        }
    }

    /// The counters that the log on a disk has; none where there is no log.
    fn logged(&self, disk: &MemoryDisk) -> Vec<u64> {
        let log = disk.clone().read(&self.log(), 65_536).unwrap_or_default();
        assert_eq!(log.len() % 16, 0);
        let number = |bytes: &[u8]| u64::from_be_bytes(bytes.try_into().unwrap());
        log.chunks(16)
            .map(|record| {
                assert_eq!(number(&record[..8]), KID.0);
                number(&record[8..])
            })
            .collect()
    }

    fn run(&self, disk: &mut MemoryDisk, command: Command) -> Result<Vec<u8>, Failure> {
        let mut out = vec![];
        commands::run(command, disk, &mut out).map(|()| out)
    }

    /// Seals, and answers the counter of the frame if one was given out.
    fn counter(&self, disk: &mut MemoryDisk) -> Option<u64> {
        let frame = self.run(disk, self.seal()).ok()?;
        let Ctr(counter) = read_header(&frame).unwrap().ctr;
        Some(counter)
    }

    /// The bytes of the store on a disk.
    fn bytes(&self, disk: &MemoryDisk) -> Vec<u8> {
        let most = MAX_RECORDS * RECORD;
        disk.clone().read(&self.store(), most).unwrap()
    }

    /// The next counter that the store on a disk has.
    fn next(&self, disk: &MemoryDisk) -> u64 {
        let bytes = self.bytes(disk);
        let records = StoreView::over(&bytes).records().unwrap();
        records[0].next.0
    }
}

impl Drop for Setup {
    fn drop(&mut self) {
        let _ = fs::remove_dir_all(&self.folder);
    }
}

#[test]
fn sealing_stopped_at_every_step() {
    let setup = Setup::new("every-step");
    let (mut old, mut new) = (0, 0);
    for step in 0.. {
        let mut disk = setup.disk.stopping_at(step);
        let given_out = setup.counter(&mut disk);
        for (names, contents) in RESTARTS {
            let mut disk = disk.restarted(names, contents);
            let next = setup.next(&disk);
            if let Some(counter) = given_out {
                assert!(next > counter, "stopped at {step}, {names:?}, {contents:?}");
            }
            if next == 0 {
                old += 1;
            } else {
                new += 1;
            }
            // The store goes on from there, whatever a stopped run left behind.
            assert_eq!(setup.counter(&mut disk), Some(next));
            assert_eq!(setup.next(&disk), next + 1);
        }
        if given_out.is_some() {
            assert!(
                step >= 13,
                "two reads behind a look, two looks at the owner, remove, create, owner, write, sync, rename, sync"
            );
            break;
        }
    }
    assert!(old > 0 && new > 0);
}

/// A picture may be lost, if the run is stopped behind the store's renaming; one
/// that was given out does not come again.
#[test]
fn opening_stopped_at_every_step() {
    let setup = Setup::receiving("opening", 1);
    let (mut shown_later, mut lost) = (0, 0);
    for step in 0.. {
        let mut disk = setup.disk.stopping_at(step);
        let shown = setup.run(&mut disk, setup.open(0)).is_ok();
        for (names, contents) in RESTARTS {
            let mut disk = disk.restarted(names, contents);
            let again = setup.given_out(&mut disk, 0);
            assert!(
                !(shown && again),
                "stopped at {step}, {names:?}, {contents:?}"
            );
            shown_later += u32::from(again);
            lost += u32::from(!shown && !again);
            assert!(!setup.given_out(&mut disk, 0));
        }
        if shown {
            assert!(
                step >= 13,
                "two reads behind a look, two looks at the owner, remove, create, owner, write, sync, rename, sync"
            );
            break;
        }
    }
    assert!(shown_later > 0 && lost > 0);
}

/// Many openings in a row, each stopped at another step and restarted in another
/// way: each picture is given out at most once.
#[test]
fn many_stopped_openings() {
    const FRAMES: usize = 50;
    let setup = Setup::receiving("many-openings", FRAMES);
    let mut disk = setup.disk.clone();
    let mut times = [0; FRAMES];
    for run in 0..1_000 {
        let number = run / 20;
        let mut stopped = disk.stopping_at(run * 7 % 19);
        if setup.run(&mut stopped, setup.open(number)).is_ok() {
            times[number] += 1;
        }
        let (names, contents) = RESTARTS[run / 3 % 4];
        disk = stopped.restarted(names, contents);
    }
    assert!(times.iter().all(|&times| times <= 1), "{times:?}");
    assert!(times.contains(&1), "no picture was given out");
    for number in 0..FRAMES {
        assert!(!setup.given_out(&mut disk, number));
    }
}

/// Many runs that log, each stopped at another step: every frame that was given
/// out stands in the log, and no pair stands there twice.
#[test]
fn many_stopped_runs_that_log() {
    let setup = Setup::new("logged");
    let mut disk = setup.disk.clone();
    let mut given_out = vec![];
    for run in 0..500 {
        let mut stopped = disk.stopping_at(run * 7 % 37);
        if let Ok(frame) = setup.run(&mut stopped, setup.seal_logged()) {
            given_out.push(read_header(&frame).unwrap().ctr.0);
        }
        let (names, contents) = RESTARTS[run / 3 % 4];
        disk = stopped.restarted(names, contents);
    }
    let logged = setup.logged(&disk);
    assert!(given_out.len() > 50, "{} given out", given_out.len());
    assert!(logged.is_sorted_by(|one, next| one < next));
    assert!(given_out.iter().all(|counter| logged.contains(counter)));
}

/// A log that cannot take one more record costs no counter.
#[test]
fn a_log_that_is_full_or_cut() {
    let setup = Setup::new("full");
    for length in [65_536, 65_552, 8, 17] {
        let mut disk = setup.disk.clone();
        let mut file = disk.create(&setup.log(), PRIVATE).unwrap();
        disk.write(&mut file, &vec![0; length]).unwrap();
        assert!(setup.run(&mut disk, setup.seal_logged()).is_err());
        assert_eq!(setup.next(&disk), 0);
    }
}

/// A run that fails, but is not stopped, leaves nothing beside the store.
#[test]
fn sealing_with_one_failing_step() {
    let setup = Setup::new("failing");
    for step in 0.. {
        let mut disk = setup.disk.failing_at(step);
        let given_out = setup.counter(&mut disk);
        assert_eq!(disk.names(), [setup.store()], "failed at {step}");
        if given_out.is_some() {
            break;
        }
    }
}

/// Many runs in a row, each stopped at another step and restarted in another
/// way.
#[test]
fn many_stopped_runs() {
    let setup = Setup::new("many");
    let mut disk = setup.disk.clone();
    let mut counters = vec![];
    for run in 0..2_000 {
        let mut stopped = disk.stopping_at(run * 7 % 19);
        counters.extend(setup.counter(&mut stopped));
        let (names, contents) = RESTARTS[run / 3 % 4];
        disk = stopped.restarted(names, contents);
    }
    assert!(counters.len() > 500, "{} given out", counters.len());
    assert!(counters.is_sorted_by(|one, next| one < next));
}

/// Adding and removing leave the old store or the new one, never a part.
#[test]
fn adding_and_removing_stopped_at_every_step() {
    let setup = Setup::new("others");
    let old = setup.bytes(&setup.disk);
    let add = || setup.add(Kid(7));
    let remove = || Command::Remove {
        store: setup.store(),
        kid: KID,
        wait: None,
    };
    let commands: [&dyn Fn() -> Command; 2] = [&add, &remove];
    for command in commands {
        let mut disk = setup.disk.clone();
        setup.run(&mut disk, command()).unwrap();
        let new = setup.bytes(&disk);
        assert_ne!(old, new);

        let (mut left_old, mut left_new) = (0, 0);
        for step in 0.. {
            let mut disk = setup.disk.stopping_at(step);
            let done = setup.run(&mut disk, command()).is_ok();
            for (names, contents) in RESTARTS {
                let left = setup.bytes(&disk.restarted(names, contents));
                if left == new {
                    left_new += 1;
                } else {
                    assert!(!done, "stopped at {step}, {names:?}, {contents:?}");
                    assert_eq!(left, old, "stopped at {step}, {names:?}, {contents:?}");
                    left_old += 1;
                }
            }
            if done {
                break;
            }
        }
        // More than the four of the run that was done.
        assert!(left_old > 0 && left_new > 4);
    }
}

/// Making leaves no store or the whole one.
#[test]
fn making_stopped_at_every_step() {
    let setup = Setup::new("making");
    for step in 0..14 {
        let mut disk = MemoryDisk::default().stopping_at(step);
        let made = setup.run(&mut disk, setup.make()).is_ok();
        for (names, contents) in RESTARTS {
            let mut disk = disk.restarted(names, contents);
            // Where no store is left, it can be made.
            if setup.run(&mut disk, setup.add(KID)).is_err() {
                assert!(!made);
                setup.run(&mut disk, setup.make()).unwrap();
                setup.run(&mut disk, setup.add(KID)).unwrap();
            }
            assert_eq!(setup.counter(&mut disk), Some(0));
        }
    }
}

/// A result in a file is whole or not there, whenever the run is stopped; and
/// what is given out there has a counter that does not come again.
#[test]
fn results_stopped_at_every_step() {
    let setup = Setup::new("result");
    let frame = setup.folder.join("frame");
    let whole = || setup.seal_to(&frame, false);
    let pieces = || setup.seal_pieces_to(&frame);
    let commands: [&dyn Fn() -> Command; 2] = [&whole, &pieces];
    for command in commands {
        let mut whole = 0;
        for step in 0.. {
            let mut disk = setup.disk.stopping_at(step);
            let done = setup.run(&mut disk, command()).is_ok();
            for (names, contents) in RESTARTS {
                let mut disk = disk.restarted(names, contents);
                match disk.read(&frame, 1_000) {
                    Ok(bytes) => {
                        assert_eq!(bytes.len(), 2 + 9 + 16, "stopped at {step}");
                        assert!(setup.next(&disk) > read_header(&bytes).unwrap().ctr.0);
                        whole += 1;
                    }
                    Err(_) => assert!(!done, "stopped at {step}"),
                }
            }
            if done {
                break;
            }
        }
        assert!(whole > 4);
    }
}

/// A step that fails leaves the earlier file, and nothing beside it.
#[test]
fn a_result_that_fails_keeps_the_earlier_file() {
    let setup = Setup::new("earlier");
    let frame = setup.folder.join("frame");
    let mut disk = setup.disk.clone();
    let mut file = disk.create(&frame, 0o644).unwrap();
    disk.write(&mut file, b"before").unwrap();
    for step in 0.. {
        let mut disk = disk.failing_at(step);
        let done = setup.run(&mut disk, setup.seal_to(&frame, true)).is_ok();
        let mut names = disk.names();
        names.sort();
        assert_eq!(names, [frame.clone(), setup.store()], "failed at {step}");
        let mut disk = disk.restarted(Unsynced::Kept, Unsynced::Kept);
        let bytes = disk.read(&frame, 1_000).unwrap();
        if done {
            assert_eq!(bytes.len(), 2 + 9 + 16);
            break;
        }
        let replaced = bytes.len() == 2 + 9 + 16;
        assert!(bytes == b"before" || replaced, "failed at {step}");
    }
}

/// A file that is there, or a place that cannot be had, costs no counter.
#[test]
fn a_result_with_no_place_uses_no_counter() {
    let setup = Setup::new("no-place");
    let frame = setup.folder.join("frame");
    let mut disk = setup.disk.clone();
    disk.create(&frame, 0o644).unwrap();
    let refused = setup.run(&mut disk, setup.seal_to(&frame, false));
    assert!(matches!(refused, Err(Failure::Fault(Fault::Io { .. }))));
    let refused = setup.run(&mut disk, setup.seal_to(&setup.store(), true));
    assert!(refused.is_err());
    assert_eq!(setup.next(&disk), 0);
}

/// A store whose owner cannot be kept is not changed.
#[test]
fn the_store_of_another() {
    let setup = Setup::new("another");
    let mut disk = setup.disk.clone();
    disk.give_away(&setup.store());
    let refused = setup.run(&mut disk, setup.seal()).unwrap_err().to_string();
    assert!(
        refused.contains("could not stay with user 1001"),
        "{refused}"
    );
    assert_eq!((setup.next(&disk), disk.names().len()), (0, 1));
}
