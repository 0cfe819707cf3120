//! Runs a program as a whole process, in a folder of its own.

use std::collections::HashMap;
use std::ffi::CString;
use std::fs::{self, File, OpenOptions, Permissions};
use std::io::{ErrorKind, Read, Seek, Write};
use std::os::raw::{c_char, c_int, c_ulong};
use std::os::unix::ffi::OsStrExt;
use std::os::unix::fs::{symlink, MetadataExt, OpenOptionsExt, PermissionsExt};
use std::os::unix::io::{AsRawFd, FromRawFd, OwnedFd};
use std::os::unix::process::CommandExt;
use std::path::{Path, PathBuf};
use std::process::{Child, ChildStdin, Command, Stdio};
use std::sync::atomic::{AtomicBool, Ordering};
use std::sync::mpsc::{self, RecvTimeoutError};
use std::sync::Mutex;
use std::time::{Duration, Instant};

const NOBODY: u32 = 65_534;
/// How often a process is looked at that has not ended.
const LOOK: Duration = Duration::from_secs(1);
/// Processor time, in hundredths of a second, after which a process is taken to run for ever: no test needs a tenth of it.
const MOST_TICKS: u64 = 6_000;
/// Looks that find a process asleep, with no processor time taken since the look before, until it is taken to wait for ever.
const MOST_ASLEEP: usize = 60;

// Of the C library and Linux.
const F_SETFL: c_int = 4;
const F_SETPIPE_SZ: c_int = 1_031;
const O_NONBLOCK: c_int = 0o4_000;
const O_CLOEXEC: c_int = 0o2_000_000;
/// Asks how many bytes wait in a pipe.
const FIONREAD: c_ulong = 0x541b;

extern "C" {
    fn close(fd: c_int) -> c_int;
    fn fcntl(fd: c_int, command: c_int, value: c_int) -> c_int;
    fn ioctl(file: c_int, request: c_ulong, ...) -> c_int;
    fn mkfifo(path: *const c_char, mode: u32) -> c_int;
    fn pipe2(ends: *mut c_int, flags: c_int) -> c_int;
}

/// The files that the pair program reads, in this order.
pub const NAMES: [&str; 3] = ["left.cnf", "right.cnf", "public.cnf"];

/// A file as the program finds it.
#[derive(Clone, Debug)]
pub enum Source {
    Text(Vec<u8>),
    Missing,
    Directory,
    /// There, and not to be opened by whoever runs the program.
    Locked,
    /// Opens, and every read of it fails.
    Failing,
    /// Comes a byte at a time, as all that the program reads and writes then does.
    Slow(Vec<u8>),
    /// The same, and the read after the last byte fails.
    Breaking(Vec<u8>),
    /// The same, and the second read fails, that one alone.
    Faltering(Vec<u8>),
    /// A named pipe: one writer feeds them all, each whole before it opens the next.
    Piped(Vec<u8>),
}

/// What the circuit program finds, which reads none.
pub const NO_FILES: [Source; 3] = [Source::Missing, Source::Missing, Source::Missing];

impl Source {
    /// The bytes that can be read, or None.
    pub fn text(&self) -> Option<&[u8]> {
        match self {
            Source::Text(text) | Source::Slow(text) | Source::Piped(text) => Some(text),
            _ => None,
        }
    }

    /// Whether it is read as the machine gives it, not in parts by a library that is loaded before the program.
    pub fn is_whole(&self) -> bool {
        !matches!(self, Source::Slow(_) | Source::Breaking(_) | Source::Faltering(_))
    }
}

/// How standard input comes to a program.
#[derive(Clone, Copy, PartialEq)]
pub enum Input {
    File,
    /// A pipe that brings it in two parts and is not closed before the program ends.
    Held,
    /// Not at all: its descriptor is closed, and the next file to be opened gets its number.
    Closed,
}

/// What a program did.
pub struct Ran {
    pub output: Vec<u8>,
    /// How many bytes of standard input it took, where that can be seen.
    pub taken: Option<u64>,
    /// What it wrote to standard error.
    pub said: Vec<u8>,
    /// A bad end, or none.
    pub ended: Option<String>,
    /// What went wrong besides: a bad end, words on standard error, no end.
    pub fault: Option<String>,
}

/// A folder in which one program at a time is run.
pub struct Room {
    folder: PathBuf,
    program: PathBuf,
    /// What another solver said to each text.
    said: Mutex<HashMap<Vec<u8>, bool>>,
}

impl Room {
    /// A folder of its own with a copy of the program.
    pub fn new(program: &Path, id: usize) -> std::io::Result<Room> {
        let folder = std::env::temp_dir().join(format!("forkhemit-{}-{id}", std::process::id()));
        fs::create_dir_all(folder.join("data"))?;
        fs::set_permissions(&folder, Permissions::from_mode(0o755))?;
        fs::set_permissions(folder.join("data"), Permissions::from_mode(0o755))?;
        let own = folder.join("program");
        fs::copy(program, &own)?;
        fs::set_permissions(&own, Permissions::from_mode(0o755))?;
        Ok(Room { folder, program: own, said: Mutex::default() })
    }

    /// Runs the program in the folder of these files, `input` on standard input.
    pub fn run(&self, files: &[Source; 3], input: &[u8]) -> std::io::Result<Ran> {
        self.run_with(&[], files, input)
    }

    /// Runs a program that takes arguments in the folder of these files.
    pub fn run_with(&self, arguments: &[&str], files: &[Source; 3], input: &[u8]) -> std::io::Result<Ran> {
        let given = self.folder.join("stdin");
        fs::write(&given, input)?;
        let mut shared = File::open(&given)?;
        let mut command = self.command(files)?;
        let child = command.args(arguments).stdin(shared.try_clone()?).spawn()?;
        let mut ran = self.finish(child, files)?;
        ran.taken = Some(shared.stream_position()?);
        Ok(ran)
    }

    /// Runs it with standard input a pipe that brings `input` in two parts and is not closed before the program ends.
    pub fn run_held(&self, files: &[Source; 3], input: &[u8]) -> std::io::Result<Ran> {
        let mut child = self.command(files)?.stdin(Stdio::piped()).spawn()?;
        let mut pipe = child.stdin.take().expect("a pipe was asked for");
        for part in input.chunks(input.len() / 2 + 1) {
            pipe.write_all(part)?;
            await_taken(&mut child, &pipe)?;
        }
        let ran = self.finish(child, files);
        drop(pipe);
        ran
    }

    /// Runs it without a standard input.
    pub fn run_closed(&self, files: &[Source; 3]) -> std::io::Result<Ran> {
        let mut command = self.command(files)?;
        // SAFETY: close may be called between fork and exec.
        unsafe {
            command.pre_exec(|| match close(0) {
                0 => Ok(()),
                _ => Err(std::io::Error::last_os_error()),
            })
        };
        self.finish(command.spawn()?, files)
    }

    /// Runs it under a tool of valgrind's that lists system calls and counts instructions: what it did, and what the tool says of it.
    pub fn run_traced(&self, files: &[Source; 3], input: &[u8]) -> std::io::Result<(Ran, String)> {
        let [given, said] = ["stdin", "said"].map(|name| self.folder.join(name));
        fs::write(&given, input)?;
        let mut command = Command::new("valgrind");
        command.args(["--tool=lackey", "--basic-counts=yes", "--trace-syscalls=yes"]);
        command.arg(format!("--log-file={}", said.display())).arg(&self.program);
        let child = self.prepared(command, files)?.stdin(File::open(&given)?).spawn()?;
        let ran = self.finish(child, files)?;
        Ok((ran, fs::read_to_string(said)?))
    }

    /// What comes through a standard output that holds 4,096 bytes and fails when it is full, read with a pause before each read.
    pub fn run_narrow(&self, input: &[u8], pause: Duration) -> std::io::Result<Vec<u8>> {
        let (mut reader, writer) = narrow_pipe()?;
        let mut command = self.command(&NO_FILES)?;
        let mut child = command.stdin(Stdio::piped()).stdout(writer).spawn()?;
        drop(command); // it holds the end to write to
        child.stdin.take().expect("a pipe was asked for").write_all(input)?;
        let (mut output, mut part) = (vec![], [0; 4_096]);
        loop {
            let start = Instant::now();
            while start.elapsed() < pause {
                std::hint::spin_loop();
            }
            match reader.read(&mut part)? {
                0 => break,
                count => output.extend(&part[..count]),
            }
        }
        child.wait()?;
        Ok(output)
    }

    /// The program in the folder of these files.
    fn command(&self, files: &[Source; 3]) -> std::io::Result<Command> {
        self.prepared(Command::new(&self.program), files)
    }

    /// A command in the folder of these files.
    fn prepared(&self, mut command: Command, files: &[Source; 3]) -> std::io::Result<Command> {
        let data = self.folder.join("data");
        command.current_dir(&data).stdout(Stdio::piped()).stderr(Stdio::piped());
        for (name, source) in NAMES.iter().zip(files) {
            place(&data.join(name), source)?;
            match source {
                Source::Locked if is_root()? => drop(command.uid(NOBODY).gid(NOBODY)),
                Source::Slow(_) => drop(command.env("LD_PRELOAD", small_parts()?)),
                Source::Breaking(_) => drop(command.env("LD_PRELOAD", small_parts()?).env("BREAKS", name)),
                Source::Faltering(_) => drop(command.env("LD_PRELOAD", small_parts()?).env("FALTERS", name)),
                _ => (),
            }
        }
        Ok(command)
    }

    /// Waits for the end of a program while named pipes are fed.
    fn finish(&self, child: Child, files: &[Source; 3]) -> std::io::Result<Ran> {
        let data = self.folder.join("data");
        let ended = AtomicBool::new(false);
        std::thread::scope(|scope| {
            if files.iter().any(|source| matches!(source, Source::Piped(_))) {
                scope.spawn(|| {
                    for (name, source) in NAMES.iter().zip(files) {
                        if let Source::Piped(text) = source {
                            feed(&data.join(name), text, &ended);
                        }
                    }
                });
            }
            let ran = gather(child);
            ended.store(true, Ordering::Relaxed);
            ran
        })
    }

    /// Another solver's verdict on a DIMACS text. The same text is asked for once.
    pub fn ask(&self, solver: &str, text: &[u8]) -> Result<bool, String> {
        let mut said = self.said.lock().map_err(|e| e.to_string())?;
        if let Some(&verdict) = said.get(text) {
            return Ok(verdict);
        }
        let verdict = asked(solver, text)?;
        said.insert(text.to_vec(), verdict);
        Ok(verdict)
    }
}

impl Drop for Room {
    fn drop(&mut self) {
        let _ = fs::remove_dir_all(&self.folder);
    }
}

/// Solvers of Debian's packages whose verdicts are asked for.
const SOLVERS: [&str; 2] = ["cadical", "picosat"];

/// Whether a solver is installed. It is looked for in the path: under a memory checker a program that is not there seems to start.
pub fn installed(solver: &str) -> bool {
    let path = std::env::var_os("PATH").unwrap_or_default();
    std::env::split_paths(&path).any(|folder| folder.join(solver).is_file())
}

/// The first of them that is installed.
pub fn solver() -> std::io::Result<&'static str> {
    let missing = || std::io::Error::new(std::io::ErrorKind::NotFound, format!("none of {SOLVERS:?} is installed"));
    SOLVERS.into_iter().find(|solver| installed(solver)).ok_or_else(missing)
}

/// Asks a solver, which reads the text on its standard input: whether it is satisfiable.
pub fn asked(solver: &str, text: &[u8]) -> Result<bool, String> {
    let fault = |error: std::io::Error| format!("{solver}: {error}");
    let mut command = Command::new(solver);
    let piped = command.stdin(Stdio::piped()).stdout(Stdio::piped()).stderr(Stdio::piped());
    let mut child = piped.spawn().map_err(fault)?;
    child.stdin.take().expect("standard input is a pipe").write_all(text).map_err(fault)?;
    let ended = child.wait_with_output().map_err(fault)?;
    match ended.status.code() {
        Some(10) => Ok(true),
        Some(20) => Ok(false),
        _ => Err(format!("{solver} gave no verdict: {}", String::from_utf8_lossy(&ended.stderr))),
    }
}

/// Whether this process may change to another user.
fn is_root() -> std::io::Result<bool> {
    Ok(fs::metadata("/proc/self")?.uid() == 0)
}

/// The library that makes reads and writes small; it is built beside this program.
fn small_parts() -> std::io::Result<PathBuf> {
    Ok(std::env::current_exe()?.with_file_name("examples").join("libsmall_parts.so"))
}

/// Puts a file at the path, in the place of what was there.
fn place(path: &Path, source: &Source) -> std::io::Result<()> {
    match fs::symlink_metadata(path) {
        Ok(there) if there.is_dir() => fs::remove_dir(path)?,
        Ok(_) => fs::remove_file(path)?,
        Err(_) => (),
    }
    match source {
        Source::Text(text) | Source::Slow(text) | Source::Breaking(text) | Source::Faltering(text) => {
            fs::write(path, text)
        }
        Source::Missing => Ok(()),
        Source::Directory => fs::create_dir(path),
        Source::Locked => {
            fs::write(path, "p cnf 1 1\n1 0\n")?;
            fs::set_permissions(path, Permissions::from_mode(0o000))
        }
        Source::Piped(_) => {
            let path = CString::new(path.as_os_str().as_bytes())?;
            // SAFETY: the path ends in 0.
            match unsafe { mkfifo(path.as_ptr(), 0o644) } {
                0 => Ok(()),
                _ => Err(std::io::Error::last_os_error()),
            }
        }
        // a process's memory opens, and has nothing to read at its start
        Source::Failing => symlink("/proc/self/mem", path),
    }
}

/// Writes a text to a named pipe, waiting for a reader and for room, until it is written, nobody reads it any more, or the program has ended.
fn feed(pipe: &Path, text: &[u8], ended: &AtomicBool) {
    let wait = || {
        std::thread::sleep(Duration::from_millis(1));
        !ended.load(Ordering::Relaxed)
    };
    let mut writer = loop {
        match OpenOptions::new().write(true).custom_flags(O_NONBLOCK).open(pipe) {
            Ok(writer) => break writer,
            Err(_) if wait() => (),
            Err(_) => return,
        }
    };
    let mut rest = text;
    while !rest.is_empty() {
        match writer.write(rest) {
            Ok(count) => rest = &rest[count..],
            Err(error) if error.kind() == ErrorKind::WouldBlock && wait() => (),
            Err(_) => return,
        }
    }
}

/// A pipe of 4,096 bytes, a write to which fails when it is full.
fn narrow_pipe() -> std::io::Result<(File, OwnedFd)> {
    let mut ends = [0; 2];
    // SAFETY: there is room for two descriptors, which nothing else owns.
    let (reader, writer) = unsafe {
        if pipe2(ends.as_mut_ptr(), O_CLOEXEC) != 0 {
            return Err(std::io::Error::last_os_error());
        }
        (OwnedFd::from_raw_fd(ends[0]), OwnedFd::from_raw_fd(ends[1]))
    };
    for (command, value) in [(F_SETPIPE_SZ, 4_096), (F_SETFL, O_NONBLOCK)] {
        // SAFETY: the descriptor is open.
        if unsafe { fcntl(writer.as_raw_fd(), command, value) } < 0 {
            return Err(std::io::Error::last_os_error());
        }
    }
    Ok((File::from(reader), writer))
}

/// Waits until a process has taken what is in its pipe, or has ended or is stuck.
fn await_taken(child: &mut Child, pipe: &ChildStdin) -> std::io::Result<()> {
    let (mut waiting, mut watch): (c_int, Watch) = (1, Watch::default());
    loop {
        // SAFETY: the request stores one int
        if unsafe { ioctl(pipe.as_raw_fd(), FIONREAD, &mut waiting) } < 0 {
            return Err(std::io::Error::last_os_error());
        }
        if waiting == 0 || child.try_wait()?.is_some() || watch.look(child.id())?.is_some() {
            return Ok(());
        }
        std::thread::sleep(Duration::from_millis(1));
    }
}

/// Tells a process that will not end from one that is slow. The time gone by says nothing where other work goes on beside.
#[derive(Default)]
struct Watch {
    ticks: u64,
    asleep: usize,
}

impl Watch {
    /// Looks at a process once more; what is wrong with it, if it is to be ended.
    fn look(&mut self, process: u32) -> std::io::Result<Option<String>> {
        let stat = fs::read_to_string(format!("/proc/{process}/stat"))?;
        // after the name, which is in brackets: the state, and 11 numbers on the ticks, the process's own and the system's
        let fields: Vec<&str> = stat.rsplit(')').next().unwrap_or("").split_whitespace().collect();
        let ticks = fields[11..13].iter().filter_map(|ticks| ticks.parse::<u64>().ok()).sum();
        self.asleep = if fields[0] == "S" && ticks == self.ticks { self.asleep + 1 } else { 0 };
        self.ticks = ticks;
        Ok(if ticks > MOST_TICKS {
            Some(format!("no end after {} s of processor time", ticks / 100))
        } else if self.asleep > MOST_ASLEEP {
            Some("it waits for something that does not come".into())
        } else {
            None
        })
    }
}

/// Waits for the end of a program, and ends it where it does not.
fn gather(mut child: Child) -> std::io::Result<Ran> {
    let mut out = child.stdout.take().expect("a pipe was asked for").take(1 << 20);
    let mut err = child.stderr.take().expect("a pipe was asked for").take(1 << 20);
    let (sender, receiver) = mpsc::channel();
    std::thread::spawn(move || {
        let (mut output, mut said) = (vec![], vec![]);
        let read = out.read_to_end(&mut output).and_then(|_| err.read_to_end(&mut said));
        let _ = sender.send(read.map(|_| (output, said)));
    });
    let mut watch = Watch::default();
    let (output, said) = loop {
        match receiver.recv_timeout(LOOK) {
            Ok(read) => break read?,
            Err(RecvTimeoutError::Disconnected) => return Err(std::io::ErrorKind::BrokenPipe.into()),
            Err(RecvTimeoutError::Timeout) => (),
        }
        if child.try_wait()?.is_some() {
            continue;
        }
        if let Some(fault) = watch.look(child.id())? {
            child.kill()?;
            child.wait()?;
            return Ok(Ran {
                output: vec![],
                taken: None,
                said: vec![],
                ended: Some(fault.clone()),
                fault: Some(fault),
            });
        }
    };
    let status = child.wait()?;
    let ended = (!status.success()).then(|| format!("ended with {status}"));
    let words = (!said.is_empty()).then(|| format!("wrote to standard error: {}", said.escape_ascii()));
    Ok(Ran { output, taken: None, said, ended: ended.clone(), fault: ended.or(words) })
}
