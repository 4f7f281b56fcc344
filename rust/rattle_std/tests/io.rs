//! What the proofs rely on of readers and writers, files, arguments and the runtime's handles.
mod common;
use common::Random;
use rattle_std::alloc::Global;
use rattle_std::env::FillError;
use rattle_std::fs::{self, OpenFile, OpenOptions};
use rattle_std::io::{self, BufReader, ErrorKind, Read, Write as _};
use rattle_std::rt::{Alloc as _, Env as _, host};
use rattle_std::vec::Vec as List;

/// A reader of bytes that gives few at once, is interrupted, and fails in the end if it has to.
struct Slow<'a> {
    bytes: &'a [u8],
    random: Random,
    fails: bool,
}

impl Read for Slow<'_> {
    fn read(&mut self, buffer: &mut [u8]) -> io::Result<usize> {
        if self.random.below(4) == 0 {
            return Err(ErrorKind::Interrupted.into());
        }
        let most = buffer.len().min(self.bytes.len()).min(1 + self.random.below(3000));
        if most == 0 && self.fails {
            return Err(ErrorKind::BrokenPipe.into());
        }
        buffer[..most].copy_from_slice(&self.bytes[..most]);
        self.bytes = &self.bytes[most..];
        Ok(most)
    }
}

fn bytes(random: &mut Random, end: usize) -> Vec<u8> {
    (0..random.below(end)).map(|_| random.next() as u8).collect()
}

fn slow(bytes: &[u8], seed: u64, fails: bool) -> Slow<'_> {
    Slow { bytes, random: Random::new(seed), fails }
}

#[test]
fn read_to_end_appends_all_and_tries_again_where_interrupted() {
    for seed in 1..60 {
        let mut random = Random::new(seed);
        let (before, all) = (bytes(&mut random, 9), bytes(&mut random, 40_000));
        let mut list = List::from_slice(Global, &before).unwrap();
        assert_eq!(slow(&all, seed, false).read_to_end(&mut list).unwrap(), all.len());
        assert_eq!(list.as_slice(), [before, all].concat());
    }
}

#[test]
fn read_to_end_keeps_what_came_before_an_error() {
    for seed in 1..60 {
        let all = bytes(&mut Random::new(seed), 40_000);
        let mut list = List::new(Global);
        let error = slow(&all, seed, true).read_to_end(&mut list).unwrap_err();
        assert_eq!(error.kind(), ErrorKind::BrokenPipe);
        assert_eq!(list.as_slice(), all);
    }
}

#[test]
fn take_gives_so_many_bytes_at_most_and_by_ref_leaves_the_rest() {
    for seed in 1..60 {
        let mut random = Random::new(seed);
        let all = bytes(&mut random, 20_000);
        let limit = random.below(25_000);
        let (mut reader, mut first, mut rest) =
            (slow(&all, seed, false), List::new(Global), List::new(Global));
        let count = reader.by_ref().take(limit as u64).read_to_end(&mut first).unwrap();
        assert_eq!(count, limit.min(all.len()));
        assert_eq!(first.as_slice(), &all[..count]);
        reader.read_to_end(&mut rest).unwrap();
        assert_eq!(rest.as_slice(), &all[count..]);
    }
}

#[test]
fn take_asks_no_more_than_its_limit() {
    let mut reader = [1u8, 2, 3].as_slice().take(0);
    assert_eq!(reader.read(&mut [0; 4]).unwrap(), 0);
    assert_eq!([1u8, 2, 3].as_slice().take(u64::MAX).read(&mut [0; 2]).unwrap(), 2);
}

#[test]
fn buf_reader_gives_the_same_bytes_whatever_is_asked_for() {
    for seed in 1..60 {
        let mut random = Random::new(seed);
        let all = bytes(&mut random, 40_000);
        let mut reader = BufReader::new(Global, slow(&all, seed, false)).unwrap();
        let mut given = Vec::new();
        let mut room = vec![0; 9000];
        loop {
            let most = if random.below(2) == 0 { 20 } else { 9000 };
            let asked = 1 + random.below(most);
            match reader.read(&mut room[..asked]) {
                Ok(0) => break,
                Ok(count) => given.extend_from_slice(&room[..count]),
                Err(error) => assert_eq!(error.kind(), ErrorKind::Interrupted),
            }
        }
        assert_eq!(given, all);
    }
}

#[test]
fn a_vector_takes_all_that_is_written() {
    let mut random = Random::new(8);
    let (mut list, mut wanted) = (List::new(Global), Vec::new());
    for _ in 0..50 {
        let part = bytes(&mut random, 300);
        assert_eq!(list.write(&part).unwrap(), part.len());
        list.flush().unwrap();
        wanted.extend(part);
        assert_eq!(list.as_slice(), wanted);
    }
}

#[test]
fn arguments_and_variables_fill_a_buffer_or_say_why_not() {
    let (rt, mut room) = (host(), [0; 4096]);
    let wanted = std::env::args_os().next().unwrap();
    let count = rt.arg(0, &mut room).unwrap();
    assert_eq!(&room[..count], wanted.as_encoded_bytes());
    assert_eq!(rt.arg(0, &mut room[..1]), Err(FillError::TooLong(count)));
    assert_eq!(rt.arg(usize::MAX, &mut room), Err(FillError::NotPresent));
    let count = rt.var("PATH", &mut room).unwrap();
    assert_eq!(&room[..count], std::env::var_os("PATH").unwrap().as_encoded_bytes());
    assert_eq!(rt.var("PATH", &mut []), Err(FillError::TooLong(count)));
    assert_eq!(rt.var("A VARIABLE THAT ISN'T THERE", &mut room), Err(FillError::NotPresent));
}

#[test]
fn files_are_made_read_renamed_and_removed() {
    let rt = &host();
    assert_eq!(rt.alloc(), Global);
    let folder = std::env::temp_dir().join(format!("rattle_std_{}", std::process::id()));
    std::fs::create_dir_all(&folder).unwrap();
    let path = |name: &str| folder.join(name).to_str().unwrap().to_string();
    let (from, to) = (path("from"), path("to"));
    let mut made = OpenOptions::new();
    made.write(true).create_new(true);
    #[cfg(unix)]
    rattle_std::os::unix::fs::OpenOptionsExt::mode(&mut made, 0o600);
    let mut file = made.open(&rt, &from).unwrap();
    file.write_all(b"some bytes").unwrap();
    keep(&file);
    assert_eq!(made.open(&rt, &from).unwrap_err().kind(), ErrorKind::AlreadyExists);
    fs::rename(&rt, &from, &to).unwrap();
    assert_eq!(fs::metadata(&rt, &from).unwrap_err().kind(), ErrorKind::NotFound);
    assert_eq!(fs::metadata(&rt, &to).unwrap().len(), 10);
    assert!(fs::symlink_metadata(&rt, &to).unwrap().is_file());
    #[cfg(unix)]
    {
        use rattle_std::os::unix::fs::{MetadataExt as _, PermissionsExt as _, lchown};
        let known = fs::metadata(&rt, &to).unwrap();
        assert_eq!(known.permissions().mode() & 0o777, 0o600);
        lchown(&rt, &to, Some(known.uid()), Some(known.gid())).unwrap();
    }
    let mut list = List::new(Global);
    fs::open(&rt, &to).unwrap().read_to_end(&mut list).unwrap();
    assert_eq!(list.as_slice(), b"some bytes");
    fs::remove_file(&rt, &to).unwrap();
    assert!(fs::open(&rt, &to).is_err());
    std::fs::remove_dir(&folder).unwrap();
}

/// What a call does that is written for any kind of files.
fn keep<F: OpenFile>(file: &F) {
    file.set_permissions(file.metadata().unwrap().permissions()).unwrap();
    file.sync_all().unwrap();
}
