//! Sessions of the shell in this process: as they stand, and with each allocation of each line
//! refused. Run by `cargo test`; the sessions are those of `runs/`, and random ones.
mod faults;
mod random;
mod sessions;

use faults::{Refusing, counted, live, refusing};
use nifazombi::rattle_std::alloc::Global;
use nifazombi::rattle_std::vec::Vec as Answers;
use programs::line_sessions::Refusal;
use sessions::{Room, Session, sessions};
use shell::Shell;

/// What is answered where memory fails, and where it does so for a file behind a call of `save`,
/// which is made then.
const REFUSED: &[u8] = b"out of memory\n";
const UNSAVED: &[u8] = b"no file: out of memory\n";
/// So many bytes of an answer have room, if no more are asked for: longer ones grow.
const ROOM: usize = 600;

/// What a line is answered, or why it ends the session.
fn said(shell: &mut Shell, line: &[u8], room: usize, how: Refusing) -> Result<Vec<u8>, String> {
    let mut answers = Answers::with_capacity(Global, room).unwrap();
    let outcome = refusing(how, || shell.answer(line, &mut answers));
    match outcome {
        Ok(()) => Ok(answers.to_vec()),
        Err(Refusal::Bad(why)) => Err(why.to_owned()),
        Err(Refusal::Memory) => Err("out of memory".to_owned()),
    }
}

/// The same, where nothing is refused.
fn told(shell: &mut Shell, line: &[u8]) -> Result<Vec<u8>, String> {
    said(shell, line, 1 << 16, Refusing::None)
}

/// The answers of all that a refused line may not change: of the current trie, of the open view, of
/// frozen tries and of others.
fn picture(shell: &mut Shell, names: &[String]) -> Vec<u8> {
    let calls = ["iter", "len", "footprint", "check_integrity", "tries", "path", "prefix"];
    let mut lines: Vec<String> = calls.map(str::to_owned).into();
    for name in names {
        lines.extend(["== ", "union "].map(|call| format!("{call}{name}")));
        lines.push(format!("frozen {name} iter"));
    }
    let answers = lines.iter().map(|line| told(shell, line.as_bytes()).unwrap());
    answers.collect::<Vec<_>>().concat()
}

/// Whether a refusal may leave what the line has done so far.
fn may_be_half_done(line: &[u8]) -> bool {
    let line = String::from_utf8_lossy(line);
    let words: Vec<&str> = line.split(' ').collect();
    let call = match *words {
        ["save" | "load", _, call, ..] | ["into_trie", call, ..] => call,
        _ => words[0],
    };
    words[0] == "save" || ["extend", "merge", "retain", "retain_below", "lines"].contains(&call)
}

/// Whether the line runs commands of which each is refused alone.
fn is_once(line: &[u8]) -> bool {
    String::from_utf8_lossy(line).contains("run_once ")
}

/// A session whose lines are refused memory, and how many refusals have been met.
struct Trial<'a> {
    session: &'a Session,
    names: Vec<String>,
    room: Option<Room>,
    shell: Shell,
    met: usize,
}

impl<'a> Trial<'a> {
    fn new(session: &'a Session) -> Trial<'a> {
        let names = session.names();
        let room = Some(Room::of(session));
        Trial { session, names, room, shell: session.shell(), met: 0 }
    }

    /// Begins anew, up to before the line of this number.
    fn return_to(&mut self, at: usize) {
        // The folder before it goes first: a process is in one alone.
        self.room = None;
        self.room = Some(Room::of(self.session));
        self.shell = self.session.shell();
        for exchange in &self.session.exchanges[..at] {
            assert_eq!(told(&mut self.shell, &exchange.line), exchange.said(), "{}", self.session);
        }
    }

    /// Gives the line with memory refused so. False: none was, so that it is answered.
    fn is_refused(&mut self, at: usize, how: Refusing, before: &[u8]) -> bool {
        let exchange = &self.session.exchanges[at];
        let outcome = said(&mut self.shell, &exchange.line, ROOM, how);
        let is_met = counted().refused > 0;
        let whose = || format!("{}, {how:?}, {:?}", self.session, exchange.shown());
        if !is_met {
            assert_eq!(outcome, exchange.said(), "{}", whose());
            return false;
        }
        self.met += 1;
        let is_refused = outcome.as_deref() == Ok(REFUSED);
        let is_own = counted().foreign_refused == 0;
        assert!(!exchange.is_inline || is_own || !is_refused, "{}", whose());
        let is_unsaved = outcome.as_deref() == Ok(UNSAVED) && exchange.line.starts_with(b"save ");
        let is_in_part = is_once(&exchange.line)
            && outcome
                .as_ref()
                .is_ok_and(|it| it.split(|byte| *byte == b'\n').any(|it| it == b"refused"));
        if is_in_part {
            // The other commands are run: `refused_commands` sees what they leave.
        } else if !is_refused && !is_unsaved {
            // The library does without: it asks for more than it needs first, or gives none back.
            assert_eq!(outcome, exchange.said(), "{}", whose());
        } else if !may_be_half_done(&exchange.line) {
            let after = picture(&mut self.shell, &self.names);
            assert_eq!(shown(before), shown(&after), "{} has changed it", whose());
        }
        if !is_refused || may_be_half_done(&exchange.line) {
            self.return_to(at);
        }
        true
    }

    /// Refuses each allocation of a line alone, and all from each one on, until none is met.
    fn refuse(&mut self, at: usize) {
        let before = picture(&mut self.shell, &self.names);
        for number in 1.. {
            if !self.is_refused(at, Refusing::From(number), &before) {
                return;
            }
            if !self.is_refused(at, Refusing::One(number), &before) {
                self.return_to(at);
            }
        }
    }
}

fn shown(bytes: &[u8]) -> String {
    String::from_utf8_lossy(bytes).into_owned()
}

/// Refuses memory in each of these sessions, and counts the refusals.
fn refuse_in(sessions: &[Session]) -> usize {
    let mut met = 0;
    for session in sessions {
        let mut trial = Trial::new(session);
        for at in 0..session.exchanges.len() {
            trial.refuse(at);
        }
        met += trial.met;
    }
    met
}

#[test]
fn sessions_as_they_stand() {
    let sessions = sessions();
    for session in &sessions {
        let _room = Room::of(session);
        let mut shell = session.shell();
        for exchange in &session.exchanges {
            let outcome = told(&mut shell, &exchange.line);
            assert_eq!(outcome, exchange.said(), "{session}, {:?}", exchange.shown());
            // The call behind this mark makes no allocation in the library: those of the line are
            // the shell's own. `finish` asks for memory, and does without where there is none.
            let made = counted().foreign;
            let is_well = !exchange.is_inline || made == 0 || exchange.line.ends_with(b" finish");
            assert!(is_well, "{session}, {:?}: {made} allocations", exchange.shown());
        }
    }
    let lines: usize = sessions.iter().map(|session| session.exchanges.len()).sum();
    println!("{} sessions of {lines} lines", sessions.len());
}

/// Each call that is told of stands in one of the groups that are listed.
#[test]
fn groups_hold_all_calls() {
    let mut shell = Shell::new(false, false);
    let mut lines_of = |line: &str| -> Vec<String> {
        shown(&told(&mut shell, line.as_bytes()).unwrap()).lines().map(str::to_owned).collect()
    };
    let (mut all, mut grouped) = (lines_of("help all"), Vec::new());
    for group in lines_of("help").iter().filter_map(|line| line.split_once(": ")) {
        grouped.extend(lines_of(&format!("help {}", group.0)));
    }
    all.sort();
    grouped.sort();
    assert_eq!(grouped, all);
}

#[test]
fn sessions_leave_no_memory_behind() {
    for session in &sessions() {
        let _room = Room::of(session);
        let mut shell = session.shell();
        let before = live();
        for exchange in &session.exchanges {
            let _ = told(&mut shell, &exchange.line);
        }
        assert_eq!(told(&mut shell, b"begin text"), Ok(b"ok\n".to_vec()));
        assert_eq!(live(), before, "{session}");
    }
}

#[test]
fn refused_allocations_in_sessions() {
    println!("{} refusals", refuse_in(&sessions()));
}

#[test]
fn refused_allocations_in_random_sessions() {
    let mut drawn: Vec<Session> = random::sessions(1..=100, 50).collect();
    drawn.push(random::long_session());
    println!("{} refusals", refuse_in(&drawn));
}

/// Behind each answer, however long, there is room to say that memory fails for the next line.
#[test]
fn answers_leave_room() {
    let mut shell = Shell::new(false, false);
    for count in 1..2_000 {
        let mut answers = Answers::new(Global);
        let line = format!("nibblet from_hex {}", "0".repeat(count));
        shell.answer(line.as_bytes(), &mut answers).unwrap();
        let length = answers.len();
        assert!(answers.capacity() - length >= REFUSED.len(), "{count} digits");
        // Where there is none for more, that is said there.
        let mut answers = Answers::with_capacity(Global, REFUSED.len()).unwrap();
        let outcome = refusing(Refusing::From(1), || shell.answer(line.as_bytes(), &mut answers));
        assert_eq!((outcome, &*answers), (Ok(()), REFUSED));
    }
}

/// A command that is refused is answered so and changes nothing, and those behind it are run.
#[test]
fn refused_commands() {
    // What stands before the commands, these, and what stands behind them.
    let rows = [
        ("run_once ", &["insert abc 1", "insert abd 2", "len"][..], ""),
        ("run_once within \"\" ", &["insert aaa 1", "insert abe 2", "remove ab", "len"], " end"),
    ];
    for (before, commands, behind) in rows {
        let mut found = 0;
        for number in 1..100 {
            let (mut shell, mut other) = (Shell::new(false, false), Shell::new(false, false));
            for shell in [&mut shell, &mut other] {
                assert_eq!(told(shell, b"from_iter ab 1 b 2"), Ok(b"ok\n".to_vec()));
            }
            let line = format!("{before}{}{behind}", commands.join(" "));
            let answer = said(&mut shell, line.as_bytes(), ROOM, Refusing::One(number)).unwrap();
            let answer = shown(&answer);
            if answer == "refused\n" {
                // All that is within a key was: none of these commands is run.
                assert_eq!(picture(&mut shell, &[]), picture(&mut other, &[]), "{line}");
                continue;
            }
            let replies = answer.lines().filter(|line| !["replies", "end"].contains(line));
            let Some(place) = replies.into_iter().position(|line| line == "refused") else {
                continue;
            };
            found += 1;
            let rest: Vec<&str> = [&commands[..place], &commands[place + 1..]].concat();
            let line = format!("{before}{}{behind}", rest.join(" "));
            let well = told(&mut other, line.as_bytes()).unwrap();
            assert_eq!(answer.replacen("refused\n", "", 1), shown(&well), "{line}");
            assert_eq!(picture(&mut shell, &[]), picture(&mut other, &[]), "{line}");
        }
        assert!(found > 1, "{before}: commands are refused");
    }
}
