//! The oracle: reads a call log on standard input and answers each call from the Rust.
//! Where the Rust errs or panics, or the documents have a limit that the Rust has not, the answer is `undefined` and nothing has changed.
//!
//! --raw             the Rust as it is: `error ..` or `panic ..` in place of `undefined`, no limits, own messages stored when made,
//!                   nothing put back; comments are printed, and `counts` shows the counts per sender and the size of the store
//! --values          no log: lines `max-faulty HEX`, `winner HEX`, `complete HEX`, each answered by the Rust's function of that name
//! --share-passes    a share of too few values does not panic, so that the batch applies and the recipe says `missing`
//!
//! Two lines more, which are no calls of the log and not there with --raw:
//! try LINE          what a call would answer; the state stays as it was
//! unsigned ..       a `batch` in which a verdict may be 4: under no key does that message verify
use std::io::{self, BufRead, Write};
use std::panic::{catch_unwind, set_hook, AssertUnwindSafe};
use std::sync::atomic::Ordering::Relaxed;
use std::sync::Mutex;

use hbbft::crypto::UNSIGNED;
use hbbft::{mode, Answer, Engine, Report};

/// What the last panic said.
static PANIC: Mutex<String> = Mutex::new(String::new());

/// Runs a call of the Rust; a panic is an answer like an error.
fn guarded<T>(call: impl FnOnce() -> Answer<T>) -> Answer<T> {
    catch_unwind(AssertUnwindSafe(call)).unwrap_or_else(|_| Err(format!("panic {}", PANIC.lock().unwrap())))
}

fn undefined(why: String) -> String {
    if mode::raw() { why } else { "undefined".into() }
}

// The fields of a line; none where the field is not what it must be.

fn number(field: &[u8], most: u64) -> Option<u64> {
    if field.is_empty() || field.len() > 20 || !field.iter().all(u8::is_ascii_digit) {
        return None;
    }
    let n = std::str::from_utf8(field).ok()?.parse().ok()?;
    if n <= most { Some(n) } else { None }
}

fn big(field: &[u8]) -> Option<u64> {
    number(field, u64::max_value())
}

fn id(field: &[u8]) -> Option<u32> {
    number(field, u32::max_value().into()).map(|n| n as u32)
}

fn places(field: &[u8]) -> Option<usize> {
    number(field, 2000).map(|n| n as usize)
}

fn bytes(field: &[u8]) -> Option<Vec<u8>> {
    if field == b"-" {
        return Some(Vec::new());
    }
    let digit = |d: u8| match d {
        b'0'..=b'9' => Some(d - b'0'),
        b'a'..=b'f' => Some(d - b'a' + 10),
        _ => None,
    };
    if field.is_empty() || field.len() % 2 != 0 {
        return None;
    }
    field.chunks(2).map(|pair| Some(digit(pair[0])? << 4 | digit(pair[1])?)).collect()
}

/// The answer to a line of --values; none for a bad one.
fn value(line: &[u8]) -> Option<String> {
    let f: Vec<&[u8]> = line.split(|b| *b == b' ').collect();
    let call = match (f[0], f.len()) {
        (b"max-faulty", 2) => Engine::value_max_faulty,
        (b"winner", 2) => Engine::value_winner,
        (b"complete", 2) => Engine::value_complete,
        _ => return None,
    };
    let bytes = bytes(f[1])?;
    Some(guarded(|| call(&bytes)).unwrap_or_else(undefined))
}

#[derive(Default)]
struct Oracle {
    engine: Option<Engine>,
    /// The last batch's report.
    report: Option<Report>,
    /// The accepted lines that led to the engine's state, from its `new` or `join` on.
    accepted: Vec<Vec<u8>>,
}

impl Oracle {
    /// The answer to a line; none for a bad one.
    fn answer(&mut self, line: &[u8]) -> Option<String> {
        let f: Vec<&[u8]> = line.split(|b| *b == b' ').collect();
        Some(match (f[0], f.len()) {
            (b"new", 6) => {
                let (id, key, era, map, params) = (id(f[1])?, big(f[2])?, big(f[3])?, bytes(f[4])?, bytes(f[5])?);
                self.start(line, || Ok((Engine::log_new(id, key, era, &map, &params)?, "started".into())))
            }
            (b"join", 5) => {
                let (id, key, plan, due) = (id(f[1])?, big(f[2])?, bytes(f[3])?, places(f[4])?);
                self.start(line, || Engine::log_join(id, key, &plan, due))
            }
            (b"vote", 2) => {
                let change = bytes(f[1])?;
                self.change(line, |engine, _| engine.log_vote(&change))
            }
            (b"add", 3) => {
                let (id, key) = (id(f[1])?, big(f[2])?);
                self.change(line, |engine, _| engine.log_add(id, key))
            }
            (b"remove", 2) => {
                let id = id(f[1])?;
                self.change(line, |engine, _| engine.log_remove(id))
            }
            (b"message", 3) => {
                let (sender, message) = (id(f[1])?, bytes(f[2])?);
                self.change(line, |engine, _| engine.log_message(sender, &message))
            }
            (b"due", 2) => {
                let message = bytes(f[1])?;
                self.change(line, |engine, _| engine.log_due(&message))
            }
            (b"batch", 7) => self.batch(line, &f, 3)?,
            (b"unsigned", 7) if !mode::raw() => self.batch(line, &f, UNSIGNED)?,
            (b"try", _) if !mode::raw() => self.tried(line.get(4..)?)?,
            (b"plan", 3) => {
                let (key_set, room) = (big(f[1])?, places(f[2])?);
                self.ask(|_, last| last.as_ref().map_or(Ok("no report".into()), |report| Engine::log_plan(report, key_set, room)))
            }
            (b"last", 1) => self.ask(|_, last| Ok(last.as_ref().map_or("none".into(), Engine::log_last))),
            (b"stored", 2) => {
                let place = big(f[1])?;
                self.ask(|engine, _| Ok(engine.log_stored(place as usize)))
            }
            (b"pending", 2) => {
                let place = big(f[1])?;
                self.ask(|engine, _| Ok(engine.log_pending(place as usize)))
            }
            (b"propose", 3) => {
                let (has_input, proposals) = (number(f[1], 1)? == 1, big(f[2])?);
                self.ask(|engine, _| Ok(engine.log_propose(has_input, proposals as usize)))
            }
            (b"next", 2) => {
                let inner = big(f[1])?;
                self.ask(|engine, _| engine.log_next(inner))
            }
            (b"schedule", 3) => {
                let (epoch, schedule) = (big(f[1])?, bytes(f[2])?);
                guarded(|| Engine::log_schedule(epoch, &schedule)).unwrap_or_else(undefined)
            }
            (b"user", 3) => {
                let (node, batch) = (id(f[1])?, bytes(f[2])?);
                guarded(|| Engine::log_user(node, &batch)).unwrap_or_else(undefined)
            }
            (b"state", 1) => self.ask(|engine, _| Ok(engine.log_state())),
            (b"counts", 1) if mode::raw() => self.ask(|engine, _| Ok(engine.counts())),
            _ => return None,
        })
    }

    /// A batch with its fields; no verdict is over `most`.
    fn batch(&mut self, line: &[u8], f: &[&[u8]], most: u8) -> Option<String> {
        let (era, inner, batch, verdicts) = (big(f[1])?, big(f[2])?, bytes(f[3])?, bytes(f[4])?);
        let lent = (places(f[5])?, places(f[6])?);
        Some(self.change(line, |engine, last| {
            let (report, answer) = engine.log_batch(era, inner, &batch, &verdicts, most, lent)?;
            *last = Some(report);
            Ok(answer)
        }))
    }

    /// What a line would answer. The state from before is made again, whatever the answer.
    fn tried(&mut self, line: &[u8]) -> Option<String> {
        let before = self.accepted.clone();
        let answer = self.answer(line);
        self.again(before);
        answer
    }

    /// The state to which these lines led.
    fn again(&mut self, lines: Vec<Vec<u8>>) {
        *self = Oracle::default();
        for line in lines {
            self.answer(&line);
        }
    }

    /// `new` and `join`: an accepted one starts afresh.
    fn start(&mut self, line: &[u8], call: impl FnOnce() -> Answer<(Engine, String)>) -> String {
        match guarded(call) {
            Ok((engine, answer)) => {
                *self = Oracle { engine: Some(engine), report: None, accepted: vec![line.to_vec()] };
                answer
            }
            Err(why) => undefined(why),
        }
    }

    /// A call that only asks.
    fn ask(&mut self, call: impl FnOnce(&mut Engine, &mut Option<Report>) -> Answer<String>) -> String {
        let (engine, report) = (&mut self.engine, &mut self.report);
        match engine {
            None => "no engine".into(),
            Some(engine) => guarded(|| call(engine, report)).unwrap_or_else(undefined),
        }
    }

    /// A call that changes the state. Without an answer the state from before is made again from the accepted lines.
    fn change(&mut self, line: &[u8], call: impl FnOnce(&mut Engine, &mut Option<Report>) -> Answer<String>) -> String {
        let (engine, report) = (&mut self.engine, &mut self.report);
        match engine.as_mut().map(|engine| guarded(|| call(engine, report))) {
            None => "no engine".into(),
            Some(Ok(answer)) => {
                self.accepted.push(line.to_vec());
                answer
            }
            Some(Err(why)) => {
                if !mode::raw() {
                    let before = std::mem::take(&mut self.accepted);
                    self.again(before);
                }
                undefined(why)
            }
        }
    }
}

fn main() -> io::Result<()> {
    let mut values = false;
    for flag in std::env::args().skip(1) {
        match flag.as_str() {
            "--values" => values = true,
            "--raw" => mode::RAW.store(true, Relaxed),
            "--share-passes" => mode::SHARE_PASSES.store(true, Relaxed),
            _ => panic!("the flags are --raw, --values and --share-passes"),
        }
    }
    set_hook(Box::new(|info| {
        let said = info.payload();
        let said = said.downcast_ref::<String>().cloned().or_else(|| said.downcast_ref::<&str>().map(|s| s.to_string()));
        // one line, and no more of it than the first
        *PANIC.lock().unwrap() = said.unwrap_or_default().lines().next().unwrap_or("").into();
    }));
    let mut oracle = Oracle::default();
    let (mut input, mut output) = (io::stdin().lock(), io::stdout().lock());
    let mut line = Vec::new();
    while input.read_until(b'\n', &mut line)? > 0 {
        if line.last() == Some(&b'\n') {
            line.pop();
        }
        if line.first() == Some(&b'#') {
            if mode::raw() {
                output.write_all(&line)?;
                output.write_all(b"\n")?;
            }
        } else if !line.is_empty() {
            let answer = if line.len() > 140_000 { None } else if values { value(&line) } else { oracle.answer(&line) };
            writeln!(output, "{}", answer.unwrap_or_else(|| "bad line".into()))?;
        }
        line.clear();
    }
    output.flush()
}
