//! Runs passplan in a folder of its own.

use std::fs::{self, File, OpenOptions, Permissions};
use std::io::{Read, Write};
use std::os::unix::fs::{PermissionsExt, symlink};
use std::os::unix::net::UnixListener;
use std::os::unix::process::CommandExt;
use std::path::{Path, PathBuf};
use std::process::{self, Child, Command, Stdio};
use std::sync::OnceLock;
use std::sync::atomic::{AtomicU32, Ordering};
use std::sync::mpsc::{self, RecvTimeoutError};
use std::time::Duration;
use std::{env, thread};

use reference::passplan;

pub const PROGRAM: &str = concat!(env!("CARGO_MANIFEST_DIR"), "/../../target/bin/passplan");
const FAULTS: &str = concat!(env!("CARGO_MANIFEST_DIR"), "/tests/program/faults.c");
/// How long a run may take: many times what the longest does.
const LONGEST: Duration = Duration::from_secs(60);
/// A user who owns nothing.
const NOBODY: u32 = 65_534;

/// What has the name of a file, or is the input.
#[derive(Clone, Copy)]
pub enum Source<'a> {
    /// Nothing; an input that is empty.
    Missing,
    /// A regular file.
    File(&'a [u8]),
    /// A FIFO, as the input a pipe, written in parts of so many bytes, each when the one before
    /// is read.
    Pipe(&'a [u8], usize),
    /// A file that the program has no right to read.
    Locked(&'a [u8]),
    Directory,
    Socket,
    /// A symbolic link.
    Link(&'a str),
}

impl<'a> Source<'a> {
    /// What there is to read.
    fn bytes(self) -> &'a [u8] {
        match self {
            Source::File(bytes) | Source::Pipe(bytes, _) => bytes,
            _ => &[],
        }
    }
}

/// What faults.c makes of system calls.
#[derive(Clone, Copy)]
pub enum Faults {
    None,
    /// A read gives at most so many bytes.
    ShortReads(usize),
    /// A write takes at most so many bytes.
    ShortWrites(usize),
    /// After so many bytes of a file, or of stdin or stdout, a call fails, once.
    Error {
        file: &'static str,
        after: usize,
        errno: u32,
    },
}

impl Faults {
    fn settings(self) -> Vec<(&'static str, String)> {
        match self {
            Faults::None => vec![],
            Faults::ShortReads(most) => vec![("READ_MOST", most.to_string())],
            Faults::ShortWrites(most) => vec![("WRITE_MOST", most.to_string())],
            Faults::Error { file, after, errno } => vec![
                ("FAULT_FILE", file.to_string()),
                ("FAULT_AFTER", after.to_string()),
                ("FAULT_ERRNO", errno.to_string()),
            ],
        }
    }
}

/// A run of the program.
#[derive(Clone, Copy)]
pub struct Run<'a> {
    pub schema: Source<'a>,
    pub policies: Source<'a>,
    pub input: Source<'a>,
    pub faults: Faults,
    /// How many bytes of the output are taken at a time, each time when the program waits.
    pub taken: Option<usize>,
    /// Whether the program is stopped and continued each time it waits.
    pub stops: bool,
}

impl<'a> Run<'a> {
    /// On regular files.
    pub fn on(schema: &'a [u8], policies: &'a [u8], input: &'a [u8]) -> Self {
        let [schema, policies, input] = [schema, policies, input].map(Source::File);
        Run { schema, policies, input, faults: Faults::None, taken: None, stops: false }
    }

    /// Demands that the program prints what the reference does.
    pub fn same(self) {
        self.prints(&passplan(self.schema.bytes(), self.policies.bytes(), self.input.bytes()));
    }

    /// Demands that the program prints these bytes.
    pub fn prints(self, wanted: &[u8]) {
        let got = self.printed();
        let first = got.iter().zip(wanted).position(|(got, wanted)| got != wanted);
        let from = first.unwrap_or(got.len().min(wanted.len()));
        let [got_part, wanted_part] = [&got[..], wanted]
            .map(|bytes| String::from_utf8_lossy(&bytes[from..bytes.len().min(from + 80)]));
        assert!(
            got == wanted,
            "{} bytes, not {}, which differ from byte {from} on: {got_part}\nwanted: {wanted_part}",
            got.len(),
            wanted.len(),
        );
    }

    fn printed(self) -> Vec<u8> {
        let folder = Folder::new();
        folder.put("schema.bin", self.schema);
        folder.put("policies.bin", self.policies);
        let program = self.command(&folder).spawn();
        let mut program = program.expect("passplan is built: tools/build passplan");
        let (id, input) = (program.id(), program.stdin.take());
        let (running, ended) = mpsc::channel::<()>();
        thread::scope(|scope| {
            scope.spawn(move || {
                if ended.recv_timeout(LONGEST) == Err(RecvTimeoutError::Timeout) {
                    signal(id, "KILL");
                }
            });
            let mut fifos = vec![];
            for (name, source) in [("schema.bin", self.schema), ("policies.bin", self.policies)] {
                if let Source::Pipe(bytes, step) = source {
                    let path = folder.0.join(name);
                    fifos.push(path.clone());
                    let open = move || OpenOptions::new().write(true).open(path).expect("a FIFO");
                    scope.spawn(move || self.feed(open(), bytes, step, id));
                }
            }
            if let (Source::Pipe(bytes, step), Some(pipe)) = (self.input, input) {
                scope.spawn(move || self.feed(pipe, bytes, step, id));
            }
            let printed = self.take(&mut program);
            let status = program.wait().expect("the program ends");
            drop(running);
            for fifo in fifos {
                // Lets a writer go on to whom no reader came.
                OpenOptions::new().read(true).write(true).open(fifo).expect("a FIFO");
            }
            assert!(status.success(), "{status}");
            printed
        })
    }

    fn command(self, folder: &Folder) -> Command {
        let mut command = Command::new(PROGRAM);
        if [self.schema, self.policies].iter().any(|source| matches!(source, Source::Locked(_))) {
            command = folder.locked_out();
        }
        let input = match self.input {
            Source::Missing => Stdio::null(),
            Source::Pipe(..) => Stdio::piped(),
            source => {
                folder.put("input", source);
                File::open(folder.0.join("input")).expect("the input").into()
            }
        };
        let settings = self.faults.settings();
        if !settings.is_empty() {
            command.env("LD_PRELOAD", faults()).envs(settings);
        }
        command.current_dir(&folder.0).stdin(input).stdout(Stdio::piped());
        command
    }

    fn feed(self, mut pipe: impl Write, bytes: &[u8], step: usize, id: u32) {
        for part in bytes.chunks(step) {
            // A program that has read enough reads no further.
            if pipe.write_all(part).is_err() {
                break;
            }
            self.wait(id);
        }
    }

    fn take(self, program: &mut Child) -> Vec<u8> {
        let mut output = program.stdout.take().expect("a pipe");
        let mut printed = Vec::new();
        let Some(step) = self.taken else {
            output.read_to_end(&mut printed).expect("the output");
            return printed;
        };
        loop {
            self.wait(program.id());
            let mut part = output.by_ref().take(step as u64);
            if part.read_to_end(&mut printed).expect("the output") == 0 {
                return printed;
            }
        }
    }

    /// Until the program waits for a part of its input or for room in its output, or has ended.
    fn wait(self, id: u32) {
        until(id, 'S');
        if self.stops {
            signal(id, "STOP");
            until(id, 'T');
            signal(id, "CONT");
        }
    }
}

/// Waits until a process is in a state, or has ended.
fn until(id: u32, wanted: char) {
    let state = || {
        let stat = fs::read_to_string(format!("/proc/{id}/stat")).ok()?;
        stat.rsplit(") ").next()?.chars().next()
    };
    while state().is_some_and(|state| state != wanted && state != 'Z') {
        thread::sleep(Duration::from_micros(20));
    }
}

fn signal(id: u32, name: &str) {
    done(Command::new("sh").args(["-c", "kill -s $0 $1", name, &id.to_string()]));
}

fn done(command: &mut Command) {
    let status = command.status().expect("a command");
    assert!(status.success(), "{command:?}");
}

/// The library of faults.c, made once.
fn faults() -> &'static Path {
    static LIBRARY: OnceLock<PathBuf> = OnceLock::new();
    LIBRARY.get_or_init(|| {
        let folder = Path::new(env!("CARGO_TARGET_TMPDIR"));
        let [made, library] = [format!("faults-{}.so", process::id()), "faults.so".into()]
            .map(|name| folder.join(name));
        let flags = ["-shared", "-fPIC", "-Wall", "-Wextra", "-Werror", FAULTS, "-o"];
        done(Command::new("cc").args(flags).arg(&made));
        fs::rename(made, &library).expect("the library");
        library
    })
}

/// A folder that is removed at its end.
struct Folder(PathBuf);

impl Folder {
    fn new() -> Self {
        static COUNT: AtomicU32 = AtomicU32::new(0);
        let count = COUNT.fetch_add(1, Ordering::Relaxed);
        let folder = env::temp_dir().join(format!("passplan-{}-{count}", process::id()));
        fs::create_dir(&folder).expect("a new folder");
        Folder(folder)
    }

    fn put(&self, name: &str, source: Source) {
        let path = self.0.join(name);
        match source {
            Source::Missing => {}
            Source::File(bytes) => fs::write(path, bytes).expect("a file"),
            Source::Pipe(..) => done(Command::new("mkfifo").arg(path)),
            Source::Locked(bytes) => {
                fs::write(&path, bytes).expect("a file");
                fs::set_permissions(path, Permissions::from_mode(0o000)).expect("a mode");
            }
            Source::Directory => fs::create_dir(path).expect("a directory"),
            Source::Socket => drop(UnixListener::bind(path).expect("a socket")),
            Source::Link(target) => symlink(target, path).expect("a link"),
        }
    }

    /// The program, run by a user whom the mode of a file keeps from reading it.
    fn locked_out(&self) -> Command {
        let program = self.0.join("passplan");
        done(Command::new("cp").arg(PROGRAM).arg(&program));
        for path in [&self.0, &program] {
            fs::set_permissions(path, Permissions::from_mode(0o755)).expect("a mode");
        }
        let mut command = Command::new(program);
        let locked = ["schema.bin", "policies.bin"].map(|name| self.0.join(name));
        if locked.iter().all(|path| File::open(path).is_ok()) {
            command.uid(NOBODY);
        }
        command
    }
}

impl Drop for Folder {
    fn drop(&mut self) {
        let removed = fs::remove_dir_all(&self.0);
        assert!(removed.is_ok() || thread::panicking(), "{removed:?}");
    }
}
