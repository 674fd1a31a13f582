//! Nothing lost: the program killed before and after each of its system calls, the machine without power after
//! each step, disks that are full and folders that may not be written, and two programs at once.

mod common;

use std::collections::BTreeMap;
use std::ffi::{c_int, c_long, c_void};
use std::fs::{self, File};
use std::io::{self, BufRead, BufReader, Write};
use std::os::unix::fs::PermissionsExt;
use std::os::unix::process::CommandExt;
use std::path::{Path, PathBuf};
use std::process::{Child, Command, Stdio};

use common::{bytes, done, done_with, fed, fed_to, ran, small, Folder, PROGRAM};
use desk::disk::{self, Disk, Unsaved};

// ---- killed at every system call

extern "C" {
    fn ptrace(request: c_int, process: c_int, at: *mut c_void, data: *mut c_void) -> c_long;
    fn waitpid(process: c_int, status: *mut c_int, options: c_int) -> c_int;
}

const TRACE_ME: c_int = 0;
const TO_NEXT_CALL: c_int = 24;
const SET_OPTIONS: c_int = 0x4200;
/// A stop at a system call has its own number, and the program ends with the one that looks on.
const CALLS_APART_AND_END: usize = 1 | 0x0010_0000;
const STOPPED_AT_CALL: c_int = 5 | 0x80;
const EXEC_STOP: c_int = 5;

/// The program with these words, killed at its `stop`-th stop: one before and one after each system
/// call of its first thread. Whether it was; else it ended by itself.
#[allow(clippy::zombie_processes)] // it is waited for by its number, stop by stop
fn killed(words: &[&str], out: &str, stop: usize) -> bool {
    let mut command = Command::new(PROGRAM);
    command
        .args(words)
        .stdin(Stdio::null())
        .stdout(File::create(out).expect("a file"))
        .stderr(Stdio::null());
    let none = std::ptr::null_mut;
    // SAFETY: of what a forked process may call, one system call
    unsafe {
        command.pre_exec(move || match ptrace(TRACE_ME, 0, none(), none()) {
            0 => Ok(()),
            _ => Err(io::Error::last_os_error()),
        })
    };
    let mut child = command
        .spawn()
        .expect("the program; this run needs a system that lets a process be traced");
    let process = child.id() as c_int;
    let wait = || {
        let mut status = 0;
        // SAFETY: the status is lent to this call alone
        let seen = unsafe { waitpid(process, &mut status, 0) };
        assert_eq!(seen, process, "{}", io::Error::last_os_error());
        // stopped, and by which signal; none once it has ended
        (status & 0xff == 0x7f).then_some(status >> 8 & 0xff)
    };
    assert_eq!(wait(), Some(EXEC_STOP));
    // SAFETY: the process is this thread's own, and stopped
    let set = unsafe {
        ptrace(
            SET_OPTIONS,
            process,
            none(),
            CALLS_APART_AND_END as *mut c_void,
        )
    };
    assert_eq!(set, 0, "{}", io::Error::last_os_error());
    let (mut stops, mut signal) = (0, 0);
    loop {
        // SAFETY: as above
        unsafe { ptrace(TO_NEXT_CALL, process, none(), signal as *mut c_void) };
        match wait() {
            None => return false,
            Some(STOPPED_AT_CALL) => {
                stops += 1;
                signal = 0;
            }
            Some(other) => signal = other as usize,
        }
        if stops == stop {
            child.kill().expect("the kill");
            assert_eq!(wait(), None);
            return true;
        }
    }
}

/// Kills the program at each stop in turn, from the same state each time, and looks at what it left. How often it
/// was killed.
fn at_every_stop(
    mut prepare: impl FnMut(),
    words: &[&str],
    out: &str,
    mut look: impl FnMut(&str),
) -> usize {
    for stop in 1.. {
        prepare();
        if !killed(words, out, stop) {
            return stop - 1;
        }
        look(&fs::read_to_string(out).expect("what it wrote"));
    }
    unreachable!("a program ends");
}

#[test]
fn an_edit_killed_at_every_system_call() {
    let folder = Folder::new();
    let (file, out, text) = (folder.file("map"), folder.file("out"), folder.file("edits"));
    small(&file);
    fs::write(&text, "insert 3 quad 0 1 4 5 licence 8\nremove 0\n").expect("a file");
    let old = bytes(&file);
    let words = ["edit", &file, "--day", "200", &text];
    let answer = done(&words);
    let new = bytes(&file);
    let (mut olds, mut news, mut answered) = (0, 0, 0);
    let stops = at_every_stop(
        || fs::write(&file, &old).expect("the file"),
        &words,
        &out,
        |wrote| {
            let now = bytes(&file);
            assert!(now == old || now == new);
            assert!(wrote.is_empty() || wrote == answer);
            if wrote == answer {
                assert!(now == new, "an edit that was answered is gone");
                answered += 1;
            }
            olds += usize::from(now == old);
            news += usize::from(now == new);
            // no lock of a dead process, and the next one goes on from what there is
            let next = fed(&["edit", &file, "--day", "300", "-"], "remove 2\n");
            assert_eq!(next.status, Some(0), "{next:?}");
            assert_eq!(
                folder.names(),
                ["edits", "map", "out"],
                "nothing is left beside"
            );
        },
    );
    println!("killed {stops} times: {olds} times nothing was made, {news} times all, {answered} times answered");
    assert!(stops > 60 && olds > 30 && news > 4 && answered > 0);
}

#[test]
fn a_new_map_killed_at_every_system_call() {
    let folder = Folder::new();
    let (file, out) = (folder.file("map"), folder.file("out"));
    let words = ["new", &file, "--marks", "6", "--cells", "4"];
    let answer = done(&words);
    let new = bytes(&file);
    let (mut none, mut made) = (0, 0);
    at_every_stop(
        || {
            for name in folder.names() {
                fs::remove_file(folder.file(&name)).expect("a file");
            }
        },
        &words,
        &out,
        |wrote| {
            let there = Path::new(&file).exists();
            assert!(!there || bytes(&file) == new);
            assert!(wrote.is_empty() || (wrote == answer && there));
            none += usize::from(!there);
            made += usize::from(there);
            if !there {
                done(&words);
            }
            done_with(&["edit", &file, "--day", "1", "-"], "insert 0 bar 0 1\n");
            assert_eq!(folder.names(), ["map", "out"]);
        },
    );
    assert!(none > 10 && made > 4, "{none} {made}");
}

#[test]
fn a_fold_killed_at_every_system_call() {
    let folder = Folder::new();
    let (file, out) = (folder.file("map"), folder.file("out"));
    small(&file);
    done_with(&["edit", &file, "--day", "500", "-"], "remove 0\n");
    let old = bytes(&file);
    let words = ["fold", &file, "--through", "120"];
    let answer = done(&words);
    let new = bytes(&file);
    assert!(new.len() < old.len());
    let mut seen = [0; 2];
    at_every_stop(
        || fs::write(&file, &old).expect("the file"),
        &words,
        &out,
        |wrote| {
            let now = bytes(&file);
            assert!(now == old || now == new);
            assert!(wrote.is_empty() || (wrote == answer && now == new));
            seen[usize::from(now == new)] += 1;
            done(&["check", &file]);
        },
    );
    assert!(seen[0] > 10 && seen[1] > 4, "{seen:?}");
}

// ---- the machine without power

/// A disk that loses what was not synced: what a file holds now and what the disk has of it, and
/// the names that were given since the folder was synced.
#[derive(Clone, Default)]
struct Model {
    files: Vec<(Vec<u8>, Vec<u8>)>,
    names: BTreeMap<PathBuf, usize>,
    /// The names on the disk, and each state of them since.
    since: Vec<BTreeMap<PathBuf, usize>>,
    /// Steps before the power goes, or before one fails.
    left: Option<usize>,
    /// A step that fails is one step, as on a full disk; else nothing is done any more.
    once: bool,
    /// A wrong disk, whose sync does nothing.
    careless: bool,
    steps: usize,
}

impl Model {
    fn step(&mut self) -> io::Result<()> {
        self.steps += 1;
        match &mut self.left {
            Some(0) if self.once => {
                self.left = None;
                Err(io::ErrorKind::StorageFull.into())
            }
            Some(0) => Err(io::ErrorKind::Other.into()),
            Some(left) => {
                *left -= 1;
                Ok(())
            }
            None => Ok(()),
        }
    }

    fn named(&mut self) {
        let names = self.names.clone();
        self.since.push(names);
    }

    /// All that a file may hold once the power is back: with any state of the names since the folder was
    /// synced, what was synced of it, all of it, the first part of it, and zeros as long.
    fn after_power(&self, path: &Path) -> Vec<Option<Vec<u8>>> {
        let mut all = Vec::new();
        for names in &self.since {
            let Some(&file) = names.get(path) else {
                all.push(None);
                continue;
            };
            let (now, synced) = &self.files[file];
            all.push(Some(synced.clone()));
            all.push(Some(now.clone()));
            if now != synced {
                all.push(Some(now[..now.len() / 2].to_vec()));
                all.push(Some(vec![0; now.len()]));
            }
        }
        all
    }
}

impl Disk for Model {
    type File = usize;

    fn create(&mut self, path: &Path, _: Option<&Path>) -> io::Result<usize> {
        self.step()?;
        assert!(!self.names.contains_key(path));
        self.files.push((Vec::new(), Vec::new()));
        self.names.insert(path.to_path_buf(), self.files.len() - 1);
        self.named();
        Ok(self.files.len() - 1)
    }

    fn hold(&mut self, _: &mut usize) -> io::Result<()> {
        self.step()
    }

    fn write(&mut self, file: &mut usize, bytes: &[u8]) -> io::Result<()> {
        // a write that fails may have written a part
        let half = bytes.len() / 2;
        self.files[*file].0.extend(&bytes[..half]);
        self.step()?;
        self.files[*file].0.extend(&bytes[half..]);
        Ok(())
    }

    fn sync(&mut self, file: &mut usize) -> io::Result<()> {
        self.step()?;
        if !self.careless {
            let (now, synced) = &mut self.files[*file];
            synced.clone_from(now);
        }
        Ok(())
    }

    fn rename(&mut self, from: &Path, to: &Path) -> io::Result<()> {
        self.step()?;
        let file = self.names.remove(from).expect("the file");
        self.names.insert(to.to_path_buf(), file);
        self.named();
        Ok(())
    }

    fn link(&mut self, from: &Path, to: &Path) -> io::Result<()> {
        self.step()?;
        if self.names.contains_key(to) {
            return Err(io::ErrorKind::AlreadyExists.into());
        }
        self.names.insert(to.to_path_buf(), self.names[from]);
        self.named();
        Ok(())
    }

    fn remove(&mut self, path: &Path) -> io::Result<()> {
        self.step()?;
        self.names.remove(path).expect("the file");
        self.named();
        Ok(())
    }

    fn sync_folder(&mut self, _: &Path) -> io::Result<()> {
        self.step()?;
        if !self.careless {
            self.since = vec![self.names.clone()];
        }
        Ok(())
    }
}

const OLD: &[u8] = b"the old map";
const NEW: &[u8] = b"the new map, which is longer";

fn with_old(path: &Path) -> Model {
    let mut model = Model {
        files: vec![(OLD.to_vec(), OLD.to_vec())],
        names: BTreeMap::from([(path.to_path_buf(), 0)]),
        ..Model::default()
    };
    model.named();
    model
}

/// After each step: the file is the old one or the new one, and the new one once it is answered. Whether that held.
fn power_fails(careless: bool) -> bool {
    let path = Path::new("map");
    let mut held = true;
    for steps in 0.. {
        let mut model = with_old(path);
        (model.left, model.careless) = (Some(steps), careless);
        let saved = disk::replace(&mut model, path, NEW);
        for file in model.after_power(path) {
            let file = file.as_deref();
            held &= match saved {
                Ok(_) => file == Some(NEW),
                Err(_) => file == Some(OLD) || file == Some(NEW),
            };
        }
        if saved.is_ok() {
            assert!(steps >= 6, "{steps} steps");
            break;
        }
    }
    for steps in 0.. {
        let mut model = Model::default();
        model.named();
        (model.left, model.careless) = (Some(steps), careless);
        let made = disk::make(&mut model, path, NEW);
        for file in model.after_power(path) {
            let file = file.as_deref();
            held &= file == Some(NEW) || (made.is_err() && file.is_none());
        }
        if made.is_ok() {
            break;
        }
    }
    held
}

#[test]
fn the_power_fails_after_every_step() {
    assert!(power_fails(false));
    // and the run would tell a program that does not sync
    assert!(!power_fails(true));
}

#[test]
fn a_disk_that_is_full_at_every_step() {
    let path = Path::new("map");
    let mut seen = [0; 2];
    for steps in 0.. {
        let mut model = with_old(path);
        (model.left, model.once) = (Some(steps), true);
        let saved = disk::replace(&mut model, path, NEW);
        let names: Vec<_> = model.names.keys().collect();
        assert_eq!(names, [path], "nothing is left beside");
        let now = &model.files[model.names[path]].0;
        match saved {
            Err(Unsaved::Before(_)) => assert_eq!(now, OLD),
            Err(Unsaved::After(_)) => assert_eq!(now, NEW),
            Ok(_) => break,
        }
        seen[usize::from(now == NEW)] += 1;
    }
    assert_eq!(seen, [5, 1]);
}

// ---- disks that are full, folders that may not be written

/// The program under a shell that lets no file be longer than a kilobyte.
fn on_a_full_disk(before: &str, words: &[&str], input: &str) -> common::Ran {
    let shell = format!("{before} ulimit -f 1; exec \"$@\"");
    fed_to(
        Command::new("sh")
            .args(["-c", &shell, "sh", PROGRAM])
            .args(words),
        input,
    )
}

#[test]
fn a_full_disk() {
    let folder = Folder::new();
    let file = folder.file("map");
    small(&file);
    let old = bytes(&file);
    assert!(old.len() > 1_024);
    let edit = ["edit", &file, "--day", "200"];
    let full = on_a_full_disk("trap '' XFSZ;", &edit, "remove 0\n");
    assert_eq!(full.status, Some(3), "{full:?}");
    assert!(full.out.is_empty(), "{full:?}");
    assert!(
        full.err.contains("Nothing was made; the file is as it was"),
        "{full:?}"
    );
    assert!(bytes(&file) == old && folder.names() == ["map"]);
    // the same where the system ends the program for it
    let ended = on_a_full_disk("", &edit, "remove 0\n");
    assert!(ended.status.is_none() && ended.out.is_empty(), "{ended:?}");
    assert_eq!(bytes(&file), old);
    // asking needs no room
    let asked = ["complaint", &file, "--mark", "1", "--day", "100"];
    assert_eq!(on_a_full_disk("", &asked, "").status, Some(0));
    // and with room again all is as it was
    done_with(&edit, "remove 0\n");
    assert_eq!(folder.names(), ["map"]);
}

#[test]
fn answers_that_cannot_be_written() {
    let folder = Folder::new();
    let file = folder.file("map");
    small(&file);
    let full = || {
        File::options()
            .write(true)
            .open("/dev/full")
            .expect("/dev/full")
    };
    let mut count = Command::new(PROGRAM);
    let ended = count
        .args(["count", &file])
        .stdout(full())
        .output()
        .expect("the program");
    assert_eq!(ended.status.code(), Some(3));
    let said = String::from_utf8(ended.stderr).expect("text");
    assert!(
        said.contains("standard output could not be written"),
        "{said}"
    );
    let to_device = ran(&["export", &file, "--day", "110", "--off", "/dev/full"]);
    assert_eq!(to_device.status, Some(3), "{to_device:?}");
    // a reader that went away
    let (reader, writer) = io::pipe().expect("a pipe");
    drop(reader);
    let mut count = Command::new(PROGRAM);
    let ended = count
        .args(["count", &file])
        .stdout(writer)
        .output()
        .expect("the program");
    assert_eq!(ended.status.code(), Some(3));
}

/// The program as one who owns nothing, where this run may do anything.
fn as_nobody(folder: &Folder, words: &[&str], input: &str) -> common::Ran {
    let program = folder.file("program");
    let mut command = Command::new(&program);
    command.args(words).current_dir("/");
    if fs::metadata("/proc/self").is_ok_and(|own| std::os::unix::fs::MetadataExt::uid(&own) == 0) {
        command.uid(65_534).gid(65_534);
    }
    fed_to(&mut command, input)
}

#[test]
fn a_folder_that_may_not_be_written() {
    let folder = Folder::new();
    fs::copy(PROGRAM, folder.file("program")).expect("a copy");
    fs::create_dir(folder.file("shut")).expect("a folder");
    let file = folder.file("shut/map");
    small(&file);
    let old = bytes(&file);
    let mode = |path: &str, mode| {
        fs::set_permissions(path, fs::Permissions::from_mode(mode)).expect("a mode")
    };
    let edit = ["edit", &file, "--day", "200"];
    let complaint = ["complaint", &file, "--mark", "1", "--day", "100"];

    // anybody may write the file, nobody the folder
    mode(&file, 0o666);
    mode(&folder.file("shut"), 0o555);
    let refused = as_nobody(&folder, &edit, "remove 0\n");
    assert_eq!(refused.status, Some(3), "{refused:?}");
    assert!(refused.err.contains("permission denied"), "{refused:?}");
    let made = as_nobody(
        &folder,
        &[
            "new",
            &folder.file("shut/other"),
            "--marks",
            "1",
            "--cells",
            "1",
        ],
        "",
    );
    assert_eq!(made.status, Some(3), "{made:?}");
    assert_eq!(as_nobody(&folder, &complaint, "").status, Some(0));

    // anybody may write the folder, nobody the file: it is not replaced either
    mode(&file, 0o444);
    mode(&folder.file("shut"), 0o777);
    let refused = as_nobody(&folder, &edit, "remove 0\n");
    assert_eq!(refused.status, Some(3), "{refused:?}");
    assert_eq!(as_nobody(&folder, &complaint, "").status, Some(0));
    assert_eq!(bytes(&file), old);
    let names = fs::read_dir(folder.file("shut"))
        .expect("the folder")
        .count();
    assert_eq!(names, 1, "nothing is left beside");
}

/// A file stays readable and writable by those who might before an edit.
#[test]
fn an_edit_keeps_who_may_read() {
    let folder = Folder::new();
    let file = folder.file("map");
    small(&file);
    let link = folder.file("link");
    std::os::unix::fs::symlink(&file, &link).expect("a link");
    for mode in [0o600, 0o640, 0o664] {
        fs::set_permissions(&file, fs::Permissions::from_mode(mode)).expect("a mode");
        done_with(
            &["edit", &link, "--day", "200"],
            "insert 3 bar 4 5\nremove 3\n",
        );
        let now = fs::metadata(&file).expect("the file").permissions().mode();
        assert_eq!(now & 0o777, mode);
    }
    let kept = fs::symlink_metadata(&link).expect("the link").is_symlink();
    assert!(kept && done(&["count", &file]).contains("9 edits kept"));
}

// ---- two programs at once

/// A prompt that holds the file, ready to answer.
struct Prompt {
    child: Child,
    out: BufReader<std::process::ChildStdout>,
}

impl Prompt {
    fn open(file: &str) -> Prompt {
        let mut child = Command::new(PROGRAM)
            .args(["desk", file, "--json"])
            .stdin(Stdio::piped())
            .stdout(Stdio::piped())
            .spawn()
            .expect("the program");
        let out = BufReader::new(child.stdout.take().expect("its output"));
        let mut prompt = Prompt { child, out };
        assert!(prompt.ask("count\n").contains("\"status\": 0"));
        prompt
    }

    fn ask(&mut self, words: &str) -> String {
        let input = self.child.stdin.as_mut().expect("its input");
        input.write_all(words.as_bytes()).expect("a question");
        let mut line = String::new();
        self.out.read_line(&mut line).expect("an answer");
        line
    }
}

#[test]
fn two_programs_at_once() {
    let folder = Folder::new();
    let file = folder.file("map");
    small(&file);
    let edit = ["edit", &file, "--day", "200"];
    let complaint = ["complaint", &file, "--mark", "1", "--day", "100"];
    let refused = |words: &[&str]| {
        let before = bytes(&file);
        let ran = fed(words, "remove 1\n");
        assert_eq!(ran.status, Some(1), "{ran:?}");
        let what_to_do =
            ran.err.contains("in use by another mengkiloh") && ran.err.contains("try again");
        assert!(ran.out.is_empty() && what_to_do, "{ran:?}");
        assert_eq!(bytes(&file), before);
    };
    let mut prompt = Prompt::open(&file);
    refused(&edit);
    refused(&complaint);
    refused(&["desk", &file]);
    // the file that an edit put in its place is held too
    let made = prompt.ask("edit --day 140\nremove 2\nend\n");
    assert!(made.contains("\"made\": 1"), "{made}");
    refused(&edit);
    // a dead program holds nothing
    prompt.child.kill().expect("the kill");
    prompt.child.wait().expect("its end");
    done(&complaint);
    done_with(&edit, "remove 1\n");

    // one that asks is waited for, and then keeps away whoever would ask or change
    let asking = File::open(&file).expect("the file");
    asking.lock().expect("a lock");
    refused(&complaint);
    refused(&["edit", &file, "--day", "300"]);
    drop(asking);
    done(&complaint);
    done_with(&["edit", &file, "--day", "300"], "remove 0\n");
}

/// Officers who ask at one moment wait for each other, and are answered.
#[test]
fn many_questions_at_one_moment() {
    const AT_ONCE: usize = 6;
    let folder = Folder::new();
    let file = folder.file("map");
    small(&file);
    let complaint = ["complaint", &file, "--mark", "1", "--day", "100"];
    let alone = done(&complaint);
    let asking: Vec<_> = (0..AT_ONCE)
        .map(|_| {
            Command::new(PROGRAM)
                .args(complaint)
                .stdout(Stdio::piped())
                .stderr(Stdio::null())
                .spawn()
                .expect("the program")
        })
        .collect();
    let mut answered = 0;
    for child in asking {
        let ended = child.wait_with_output().expect("its end");
        match ended.status.code() {
            Some(0) => assert_eq!(String::from_utf8_lossy(&ended.stdout), alone),
            status => assert!(status == Some(1) && ended.stdout.is_empty()),
        }
        answered += usize::from(ended.status.success());
    }
    assert!(answered > 0);
}

/// Programs that would edit at one moment: what is in the file is what they answered, and none
/// is written over.
#[test]
fn many_edits_at_one_moment() {
    const AT_ONCE: usize = 12;
    let folder = Folder::new();
    let file = folder.file("map");
    done(&["new", &file, "--marks", "30", "--cells", "20"]);
    let edits: Vec<_> = (0..AT_ONCE)
        .map(|cell| {
            let mut child = Command::new(PROGRAM)
                .args(["edit", &file, "--day", "7"])
                .stdin(Stdio::piped())
                .stdout(Stdio::piped())
                .stderr(Stdio::null())
                .spawn()
                .expect("the program");
            let line = format!("insert {cell} bar {cell} {}\n", cell + 1);
            let mut input = child.stdin.take().expect("its input");
            input.write_all(line.as_bytes()).expect("a line");
            child
        })
        .collect();
    let mut answered = 0;
    for (cell, child) in edits.into_iter().enumerate() {
        let ended = child.wait_with_output().expect("its end");
        let made = ended.status.code() == Some(0);
        assert!(made || ended.status.code() == Some(1));
        assert_eq!(
            made,
            ran(&["show", &file, &cell.to_string()]).status == Some(0)
        );
        answered += usize::from(made);
    }
    let count = done(&["count", &file, "--json"]);
    assert!(
        answered > 0 && count.contains(&format!("\"edits\": {answered},")),
        "{count}"
    );
    assert_eq!(folder.names(), ["map"]);
}
