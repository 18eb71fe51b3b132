//! That the soak can fail: mistakes in what is expected are found, and faults in what the harness does.
use crate::harness::Harness;
use crate::judging::By;
use crate::message::{self, How, Placing};
use judge::mistakes::MISTAKES;
use judge::rules::{Rules, DOCUMENT};
use std::sync::atomic::{AtomicUsize, Ordering};
use std::thread;

/// The rules with the mistake of these words.
pub fn rules(words: &str) -> &'static Rules {
    let found = MISTAKES.iter().find(|mistake| mistake.words == words);
    &found.unwrap_or_else(|| panic!("no planted mistake is called {words:?}; oracle/crates/judge/src/mistakes.rs has them")).rules
}

/// How many of the planted mistakes the library's own texts to these jobs tell from it, of all.
pub fn told_apart(sample: &[(Vec<u8>, Vec<u8>)]) -> (usize, usize) {
    let (next, found) = (AtomicUsize::new(0), AtomicUsize::new(0));
    let is_told = |rules: &'static Rules| sample.iter().any(|(job, text)| By::Reading(rules).text(job).as_bytes() != text);
    thread::scope(|scope| {
        for _ in 0..2 {
            scope.spawn(|| {
                while let Some(mistake) = MISTAKES.get(next.fetch_add(1, Ordering::Relaxed)) {
                    found.fetch_add(usize::from(is_told(&mistake.rules)), Ordering::Relaxed);
                }
            });
        }
    });
    (found.into_inner(), MISTAKES.len())
}

/// A byte changed before, in or behind the text, and one read behind a job, must each be found; and an untouched text is no fault.
pub fn harness_is_watched(command: &[String]) -> Result<(), String> {
    let mut harness = Harness::start_quietly(command);
    for (at, fault) in [(-1, 1), (-64, 1), (8192, 2), (8192 + 63, 2), (0, 3), (4000, 3), (8191, 3)] {
        let how = How { placing: Placing::BetweenGuards, drawn: 77 };
        let reply = harness.ask_one(message::spoil(at, how))?;
        if reply.fault != fault {
            return Err(format!("a byte changed at {at} of the text must be fault {fault}, is {}", reply.fault));
        }
    }
    let how = How { placing: Placing::EndsAtPage, drawn: 78 };
    let good = message::answer(b"\0", how);
    let batch = [good.clone(), message::overread(b"a job", how), good];
    let ended: Vec<bool> = harness.ask(&batch).iter().map(Result::is_err).collect();
    if ended != [false, true, false] {
        return Err(format!("of three calls the second reads past its job and must end the process, and that alone: {ended:?}"));
    }
    let reply = harness.ask_one(message::answer(b"\0", how))?;
    let must = By::Reading(&DOCUMENT).text(b"\0");
    if (reply.fault, reply.bytes.as_slice()) != (0, must.as_bytes()) {
        return Err(format!("a job of one zero byte must be answered {must:?}, is {reply:?}"));
    }
    Ok(())
}
