//! Logs by hand, for speed: a log is read once to be checked and counted, and once more to be written, since nothing may be
//! written before its last line is known to be right.

use super::{nothing_done, refused, Fast, Rule, Schedule};
use crate::bench::Replays;
use macaroosh::calls::Answer;
use macaroosh::{Form, Refusal, MOST_STEPS};

impl Replays for Fast {
    fn replay(&self, bundle: &[u8], standing: &[u8], log: &[u8], out: &mut [u8], words: &mut [u64]) -> Answer {
        let mut rules = [Rule::default(); 64];
        let empty = match Schedule::read(bundle, standing, &mut rules) {
            Ok(schedule) => schedule,
            Err(refusal) => return nothing_done(refusal),
        };
        if !empty.steps.is_empty() || empty.form != Form::Message {
            return nothing_done(refused(52, 0));
        }
        let lines = match count(log) {
            Ok(lines) => lines,
            Err(refusal) => return nothing_done(refusal),
        };
        match (out.get_mut(..bundle.len() + 4 * lines), words.get_mut(..empty.room())) {
            (Some(out), Some(words)) => Schedule { steps: write(bundle, log, out), ..empty }.answer(words),
            _ => nothing_done(refused(30, 0)),
        }
    }
}

// How many lines a log has; 51 and 50.
fn count(mut log: &[u8]) -> Result<usize, Refusal> {
    for i in 0..MOST_STEPS {
        if log.is_empty() {
            return Ok(i);
        }
        log = line(log).ok_or(refused(50, i))?.1;
    }
    if log.is_empty() {
        Ok(MOST_STEPS)
    } else {
        Err(refused(51, MOST_STEPS))
    }
}

// The bundle with the steps of a log that is right, in as many bytes as it needs; gives those of the steps.
fn write<'a>(bundle: &[u8], mut log: &[u8], out: &'a mut [u8]) -> &'a [u8] {
    let (before, trailer) = bundle.split_at(bundle.len() - 8);
    let (front, rest) = out.split_at_mut(before.len());
    let (steps, end) = rest.split_at_mut(rest.len() - trailer.len());
    front.copy_from_slice(before);
    for record in steps.chunks_exact_mut(4) {
        if let Some((step, rest)) = line(log) {
            record.copy_from_slice(&step);
            log = rest;
        }
    }
    end.copy_from_slice(trailer);
    for distance in end[..4].chunks_exact_mut(2) {
        let raised = u16::from_le_bytes([distance[0], distance[1]]) + steps.len() as u16;
        distance.copy_from_slice(&raised.to_le_bytes());
    }
    steps
}

// The record that the first line says, and what comes after its line feed.
#[inline(always)]
fn line(log: &[u8]) -> Option<([u8; 4], &[u8])> {
    let (p, log) = number(log.strip_prefix(b"board ")?)?;
    let (r, log) = number(log.strip_prefix(b" rule ")?)?;
    if let Some(rest) = log.strip_prefix(b"\n") {
        return Some(([p, r, 255, 255], rest));
    }
    let (m, log) = number(log.strip_prefix(b" type ")?)?;
    let (q, log) = number(log.strip_prefix(b" from ")?)?;
    Some(([p, r, m, q], log.strip_prefix(b"\n")?))
}

// A number up to 254, and what comes after it. After a leading 0 nothing more is taken, so that what follows is no blank.
#[inline(always)]
fn number(text: &[u8]) -> Option<(u8, &[u8])> {
    let digit = |byte: &u8| Some(byte.wrapping_sub(b'0')).filter(|&digit| digit < 10);
    let (first, rest) = text.split_first()?;
    let first = digit(first)?;
    if first == 0 {
        return Some((0, rest));
    }
    let (second, rest) = match rest.split_first().and_then(|(byte, after)| Some((digit(byte)?, after))) {
        Some(second) => second,
        None => return Some((first, rest)),
    };
    let two = 10 * first + second;
    let (third, rest) = match rest.split_first().and_then(|(byte, after)| Some((digit(byte)?, after))) {
        Some(third) => third,
        None => return Some((two, rest)),
    };
    let three = 10 * u16::from(two) + u16::from(third);
    if three > 254 {
        return None;
    }
    Some((three as u8, rest))
}
