//! The sessions of `runs/`, as tools/shared/sessions.py describes them.
use shell::Shell;
use std::path::{Path, PathBuf};
use std::sync::{Mutex, MutexGuard, PoisonError};
use std::{env, fmt, fs, process};

/// Behind this mark a line's call of the library takes no memory. The shell isn't given it.
const INLINE: &[u8] = b"inline ";

/// A line of input, its answer, and what stands on standard error where it ends the session.
#[derive(Default)]
pub struct Exchange {
    pub line: Vec<u8>,
    pub answer: Vec<u8>,
    pub told: String,
    pub is_inline: bool,
}

/// A session, the words that the shell is started with, and the files that are there before.
#[derive(Default)]
pub struct Session {
    pub name: String,
    pub exchanges: Vec<Exchange>,
    pub words: String,
    pub files: Vec<(String, Vec<u8>)>,
}

impl Exchange {
    /// A line, not answered yet.
    pub fn new(line: &[u8]) -> Exchange {
        let is_inline = line.starts_with(INLINE);
        let line = line.strip_prefix(INLINE).unwrap_or(line).to_vec();
        Exchange { line, is_inline, ..Exchange::default() }
    }

    /// What the shell says to the line: the answer, or what is wrong with it.
    pub fn said(&self) -> Result<Vec<u8>, String> {
        match self.told.split_once(": ") {
            Some((_, why)) => Err(why.to_owned()),
            None => Ok(self.answer.clone()),
        }
    }

    pub fn shown(&self) -> String {
        String::from_utf8_lossy(&self.line).chars().take(200).collect()
    }
}

impl fmt::Display for Session {
    fn fmt(&self, f: &mut fmt::Formatter<'_>) -> fmt::Result {
        f.write_str(&self.name)
    }
}

impl Session {
    /// A shell that is started as the session has it.
    pub fn shell(&self) -> Shell {
        Shell::new(false, self.words == "--strict")
    }

    /// The names that its lines may give to tries.
    pub fn names(&self) -> Vec<String> {
        let mut names = Vec::new();
        for exchange in &self.exchanges {
            let line = String::from_utf8_lossy(&exchange.line);
            let words: Vec<&str> = line.split(' ').collect();
            names.extend(match *words {
                ["split_off_prefix", _, name] => Some(name.to_owned()),
                ["use" | "clone" | "freeze" | "frozen_copy" | "from_sorted", name, ..] => {
                    Some(name.to_owned())
                }
                ["read" | "read_image" | "thaw" | "frozen", name, ..] => Some(name.to_owned()),
                _ => None,
            });
        }
        names.sort();
        names.dedup();
        names
    }

    /// Reads one more line of its text.
    fn add(&mut self, line: &[u8]) {
        let text = line.get(2..).unwrap_or(b"");
        let words = || String::from_utf8_lossy(text).into_owned();
        match line {
            [b'>', b' ', ..] | b">" => self.exchanges.push(Exchange::new(text)),
            [b'!', b' ', ..] => self.exchanges.last_mut().unwrap().told = words(),
            [b'#', b' ', ..] => {}
            [b'$', b' ', ..] => self.words = words(),
            [b'%', b' ', ..] => {
                let place = text.iter().position(|byte| *byte == b' ').unwrap();
                let name = String::from_utf8(text[..place].to_vec()).unwrap();
                self.files.push((name, unescaped(&text[place + 1..])));
            }
            _ => {
                let answer = &mut self.exchanges.last_mut().unwrap().answer;
                answer.extend_from_slice(line);
                answer.push(b'\n');
            }
        }
    }
}

/// The bytes that `\xNN`, `\(x*N)` and `\\` stand for, and all others.
fn unescaped(text: &[u8]) -> Vec<u8> {
    let (mut bytes, mut rest) = (Vec::new(), text);
    while let [first, after @ ..] = rest {
        (rest, _) = match (first, after) {
            (b'\\', [b'x', high, low, after @ ..]) => {
                let digits = String::from_utf8(vec![*high, *low]).unwrap();
                (after, bytes.push(u8::from_str_radix(&digits, 16).unwrap()))
            }
            (b'\\', [b'(', byte, b'*', after @ ..]) => {
                let end = after.iter().position(|byte| *byte == b')').unwrap();
                let count = str::from_utf8(&after[..end]).unwrap().parse().unwrap();
                (&after[end + 1..], bytes.extend(vec![*byte; count]))
            }
            (b'\\', [b'\\', after @ ..]) => (after, bytes.push(b'\\')),
            _ => (after, bytes.push(*first)),
        };
    }
    bytes
}

/// All sessions of `runs/`.
pub fn sessions() -> Vec<Session> {
    let folder = Path::new(env!("CARGO_MANIFEST_DIR")).join("runs");
    let mut paths: Vec<PathBuf> =
        fs::read_dir(folder).unwrap().map(|it| it.unwrap().path()).collect();
    paths.sort();
    let mut found = Vec::new();
    for path in paths {
        let file = path.file_name().unwrap().to_string_lossy().into_owned();
        found.push(Session { name: file.clone(), ..Session::default() });
        let text = fs::read(&path).unwrap();
        for line in text.split(|byte| *byte == b'\n').filter(|line| !line.is_empty()) {
            match line.strip_prefix(b"= ") {
                Some(title) => {
                    let name = format!("{file}: {}", String::from_utf8_lossy(title));
                    found.push(Session { name, ..Session::default() });
                }
                None => found.last_mut().unwrap().add(line),
            }
        }
    }
    found.retain(|session| !session.exchanges.is_empty());
    found
}

/// The folder that the process is in: one session has it at a time.
static FOLDER: Mutex<()> = Mutex::new(());

/// A folder with the files of a session, which is the current one until it is dropped.
pub struct Room {
    folder: PathBuf,
    _held: MutexGuard<'static, ()>,
}

impl Room {
    pub fn of(session: &Session) -> Room {
        let held = FOLDER.lock().unwrap_or_else(PoisonError::into_inner);
        let folder = env::temp_dir().join(format!("shell-{}", process::id()));
        let _ = fs::remove_dir_all(&folder);
        fs::create_dir_all(&folder).unwrap();
        for (name, bytes) in &session.files {
            fs::write(folder.join(name), bytes).unwrap();
        }
        env::set_current_dir(&folder).unwrap();
        Room { folder, _held: held }
    }
}

impl Drop for Room {
    fn drop(&mut self) {
        let _ = env::set_current_dir(env::temp_dir());
        let _ = fs::remove_dir_all(&self.folder);
    }
}
