//! The same questions by hand, for speed: rules decoded once with their thresholds, sets in words, nothing allocated.

mod list;
mod log;
mod search;

use crate::bench::Bench;
use macaroosh::calls::{Answer, First, Step};
use macaroosh::{Form, Refusal, MOST_WORDS, STOP};
use std::slice::ChunksExact;

// The forms as parameters of code that is made for each.
const MESSAGE: u8 = Form::Message as u8;
const COUNTING: u8 = Form::Counting as u8;
const PLAIN: u8 = Form::Plain as u8;

/// The hand-written fast version as one of the benches that are compared.
pub struct Fast;

impl Bench for Fast {
    fn run(&self, bundle: &[u8], standing: &[u8], words: &mut [u64]) -> Answer {
        let mut rules = [Rule::default(); 64];
        let schedule = match Schedule::read(bundle, standing, &mut rules) {
            Ok(schedule) => schedule,
            Err(refusal) => return nothing_done(refusal),
        };
        match words.get_mut(..schedule.room()) {
            Some(words) => schedule.answer(words),
            None => nothing_done(refused(30, 0)),
        }
    }

    fn translate(&self, bundle: &[u8], standing: &[u8], out: &mut [u8]) -> Answer {
        let mut rules = [Rule::default(); 64];
        let schedule = match Schedule::read(bundle, standing, &mut rules) {
            Ok(schedule) => schedule,
            Err(refusal) => return nothing_done(refusal),
        };
        schedule.write(bundle, schedule.form.other(), out)
    }

    fn translate_to(&self, bundle: &[u8], standing: &[u8], form: u64, out: &mut [u8]) -> Answer {
        let mut rules = [Rule::default(); 64];
        let schedule = match Schedule::read(bundle, standing, &mut rules) {
            Ok(schedule) => schedule,
            Err(refusal) => return nothing_done(refusal),
        };
        match Form::of(form) {
            Some(to) if to != schedule.form => schedule.write(bundle, to, out),
            _ => nothing_done(refused(31, 0)),
        }
    }

    fn first_step(&self, bundle: &[u8], standing: &[u8]) -> First {
        let mut rules = [Rule::default(); 64];
        let schedule = Schedule::read(bundle, standing, &mut rules)?;
        let words = &mut [0; MOST_WORDS][..schedule.room()];
        schedule.run(words)?;
        Ok(match schedule.form {
            Form::Message => schedule.first::<MESSAGE>(words),
            Form::Counting => schedule.first::<COUNTING>(words),
            Form::Plain => schedule.first::<PLAIN>(words),
        })
    }
}

fn refused(number: u8, place: usize) -> Refusal {
    Refusal { number, place: place as u32 }
}

// A refusal that leaves lent memory unchanged and counts 0.
fn nothing_done(refusal: Refusal) -> Answer {
    Answer { refusal: refusal.number, place: refusal.place, count: 0 }
}

#[derive(Clone, Copy, Default)]
struct Rule {
    from: u8,
    to: u8,
    // The type that it sends; 8 for none.
    sends: u8,
    // The thresholds by type for the bundle's n and t.
    least: [i16; 4],
}

// What reading leaves of a table, its rules apart.
struct Table {
    rules: usize,
    types: usize,
    factor: u32,
    // Bit s for each initial state s.
    initial: u16,
}

// A part's bytes before its trailer, the trailer's two distances, and its other four bytes.
fn parted(part: &[u8]) -> Option<(&[u8], usize, usize, [u8; 4])> {
    match *part {
        [ref before @ .., a, b, c, d, w, x, y, z] => {
            Some((before, u16::from_le_bytes([a, b]).into(), u16::from_le_bytes([c, d]).into(), [w, x, y, z]))
        }
        _ => None,
    }
}

// Refusals 1 to 9. Thresholds are computed before n and t are admitted; those that are admitted have them within i16.
fn read_table(part: &[u8], n: u8, t: u8, rules: &mut [Rule; 64]) -> Result<Table, Refusal> {
    let (body, first_state, first_rule, counts) = parted(part).ok_or(refused(1, 0))?;
    let [states, rule_count, types_byte, factor] = counts.map(usize::from);
    let second = types_byte >= 16;
    let types = if second { types_byte - 16 } else { types_byte };
    if states.wrapping_sub(1) >= 16
        || rule_count.wrapping_sub(1) >= 64
        || types.wrapping_sub(1) >= 4
        || factor.wrapping_sub(1) >= 8
    {
        return Err(refused(2, 0));
    }
    let size = 2 + (3 + usize::from(second)) * types;
    if first_rule != rule_count * size || first_state != 2 * states + first_rule || body.len() != first_state {
        return Err(refused(3, 0));
    }
    let (state_records, rule_records) = body.split_at(2 * states);
    let mut sent = [0u8; 16];
    let mut initial = 0;
    for (i, (record, sent)) in state_records.chunks_exact(2).zip(&mut sent).enumerate() {
        *sent = record[1];
        if record[0] > 3 || record[1] >> types != 0 || (record[0] & 1 != 0 && record[1] != 0) {
            return Err(refused(4, i));
        }
        initial |= u16::from(record[0] & 1) << i;
    }
    if initial == 0 {
        return Err(refused(5, 0));
    }
    let records = rule_records.chunks_exact(size);
    if second {
        read_rules::<4>(records, &sent[..states], n, t, rules)?;
    } else {
        read_rules::<3>(records, &sent[..states], n, t, rules)?;
    }
    Ok(Table { rules: rule_count, types, factor: factor as u32, initial })
}

// Refusals 6 to 9, where a rule has so many bytes for each type: a, b and d, or e besides.
#[inline(always)]
fn read_rules<const WIDE: usize>(
    records: ChunksExact<u8>,
    sent: &[u8],
    n: u8,
    t: u8,
    rules: &mut [Rule; 64],
) -> Result<(), Refusal> {
    let (n, t) = (i32::from(n), i32::from(t));
    for (r, (record, rule)) in records.zip(rules).enumerate() {
        let (from, to) = (record[0], record[1]);
        let (old, new) = match (sent.get(usize::from(from)), sent.get(usize::from(to))) {
            (Some(&old), Some(&new)) => (old, new),
            _ => return Err(refused(6, r)),
        };
        let mut in_range = true;
        for (least, c) in rule.least.iter_mut().zip(record[2..].chunks_exact(WIDE)) {
            let sum = i32::from(c[0] as i8) * n + i32::from(c[1] as i8) * t + i32::from(c[2] as i8);
            let e = if WIDE == 3 { 1 } else { c[3] };
            in_range &= e.wrapping_sub(1) < 8;
            *least = if WIDE == 3 { sum as i16 } else { rounded_up(sum, e) };
        }
        if !in_range {
            return Err(refused(9, r));
        }
        if old & !new != 0 {
            return Err(refused(7, r));
        }
        let fresh = new & !old;
        if fresh & fresh.wrapping_sub(1) != 0 {
            return Err(refused(8, r));
        }
        rule.from = from;
        rule.to = to;
        rule.sends = fresh.trailing_zeros() as u8;
    }
    Ok(())
}

// The smallest whole number not below sum/e, without a division. An e out of range is refused, so that any will do for it.
#[inline(always)]
fn rounded_up(sum: i32, e: u8) -> i16 {
    // Sums of admitted n and t are not below -2^14: raised by so much for each whole, they are not negative.
    const RAISED: i32 = 1 << 14;
    let at = usize::from(e.wrapping_sub(1)) % INVERSE.len();
    let raised = sum + (RAISED + 1) * (at as i32 + 1) - 1;
    (((u64::from(raised as u32) * INVERSE[at]) >> 32) as i16).wrapping_sub(RAISED as i16)
}

// 2^32/e for e from 1 to 8, each raised to the next whole number: with less than 2^18 the product is exact above bit 32.
const INVERSE: [u64; 8] =
    [inverse(1), inverse(2), inverse(3), inverse(4), inverse(5), inverse(6), inverse(7), inverse(8)];

const fn inverse(e: u64) -> u64 {
    (1 << 32) / e + 1
}

// A bundle that is not refused by reading.
struct Schedule<'a> {
    rules: &'a [Rule],
    types: usize,
    n: usize,
    t: usize,
    f: usize,
    form: Form,
    starts: &'a [u8],
    steps: &'a [u8],
}

impl<'a> Schedule<'a> {
    // Refusals 10 and 11, the table's, then 12 to 14.
    fn read(bundle: &'a [u8], standing: &'a [u8], rules: &'a mut [Rule; 64]) -> Result<Schedule<'a>, Refusal> {
        let (before, first_step, first_start, [n, t, f, form]) = parted(bundle).ok_or(refused(10, 0))?;
        if first_start > before.len() {
            return Err(refused(11, 0));
        }
        let (front, schedule) = before.split_at(before.len() - first_start);
        let table = read_table(if front.is_empty() { standing } else { front }, n, t, rules)?;
        let admitted = n.wrapping_sub(1) < 64 && u32::from(n) > table.factor * u32::from(t) && f <= t;
        let form = Form::of(form.into()).filter(|_| admitted).ok_or(refused(12, 0))?;
        let correct = usize::from(n - f);
        if first_step % 4 != 0 || first_step > 16_384 || first_start != first_step + correct {
            return Err(refused(13, 0));
        }
        let (starts, steps) = schedule.split_at(correct);
        if let Some(p) = starts.iter().position(|&s| s >= 16 || table.initial >> s & 1 == 0) {
            return Err(refused(14, p));
        }
        let rules = &rules[..table.rules];
        Ok(Schedule { rules, types: table.types, n: n.into(), t: t.into(), f: f.into(), form, starts, steps })
    }

    // How many words a board has for what it received.
    fn row<const FORM: u8>(&self) -> usize {
        self.types << usize::from(FORM == COUNTING)
    }

    // How many words the configuration has.
    fn room(&self) -> usize {
        self.starts.len() * (1 + self.types * self.form.wide()) + self.types + 1
    }

    // The senders below c.
    fn below(c: usize) -> u64 {
        !(!0u64).checked_shl(c as u32).unwrap_or(0)
    }

    // The faulty senders.
    fn faulty(&self) -> u64 {
        Self::below(self.n) & !Self::below(self.starts.len())
    }

    // What a run answers that has just the words that it needs.
    #[inline(always)]
    fn answer(&self, words: &mut [u64]) -> Answer {
        match self.run(words) {
            Ok(()) => Answer { refusal: 0, place: 0, count: (self.steps.len() / 4) as u32 },
            Err(Refusal { number, place }) => Answer { refusal: number, place, count: place },
        }
    }

    // The configuration after all steps, or after those before the first refused one; 20 to 27.
    fn run(&self, words: &mut [u64]) -> Result<(), Refusal> {
        let (states, rest) = words.split_at_mut(self.starts.len());
        for (state, &start) in states.iter_mut().zip(self.starts) {
            *state = start.into();
        }
        rest.fill(0);
        match self.form {
            Form::Message => self.take_all::<MESSAGE>(states, rest),
            Form::Counting => self.take_all::<COUNTING>(states, rest),
            Form::Plain => self.take_all::<PLAIN>(states, rest),
        }
    }

    fn take_all<const FORM: u8>(&self, states: &mut [u64], rest: &mut [u64]) -> Result<(), Refusal> {
        let (cells, rest) = rest.split_at_mut(states.len() * self.row::<FORM>());
        let (sent, last) = rest.split_at_mut(self.types);
        let (faulty, stopped) = (self.faulty(), &mut last[0]);
        for (i, record) in self.steps.chunks_exact(4).enumerate() {
            let record = [record[0], record[1], record[2], record[3]];
            if let Err(number) = self.take::<FORM>(states, cells, sent, stopped, faulty, record) {
                return Err(refused(number, i));
            }
        }
        Ok(())
    }

    // One step: the refusals of one record in their order, each where the bound that it names is needed.
    #[inline(always)]
    fn take<const FORM: u8>(
        &self,
        states: &mut [u64],
        cells: &mut [u64],
        sent: &mut [u64],
        stopped: &mut u64,
        faulty: u64,
        record: [u8; 4],
    ) -> Result<(), u8> {
        let [p, r, m, q] = record.map(usize::from);
        let state = states.get_mut(p).ok_or(20)?;
        if *stopped >> (p % 64) & 1 == 1 {
            return Err(26);
        }
        let rule = match self.rules.get(r) {
            Some(rule) => rule,
            None => {
                *stopped = self.with_stop(*stopped, record)?;
                return Ok(());
            }
        };
        if *state != u64::from(rule.from) {
            return Err(22);
        }
        let row = &mut cells[p * self.row::<FORM>()..][..self.row::<FORM>()];
        let silent = m & q == 255;
        if !silent {
            let sources = [self.n, 2, 1][usize::from(FORM)];
            if m >= sent.len() || q >= sources {
                return Err(23);
            }
            let in_transit = match FORM {
                MESSAGE => (sent[m] | faulty) & !row[m] & (1 << q) != 0,
                COUNTING => row[2 * m + q] < if q == 0 { sent[m] } else { self.f as u64 },
                _ => row[m] < sent[m] + self.f as u64,
            };
            if !in_transit {
                return Err(24);
            }
        }
        for (i, &least) in rule.least.iter().enumerate().take(self.types) {
            if total::<FORM>(row, i) + i16::from(i == m) < least {
                return Err(25);
            }
        }
        if !silent {
            match FORM {
                MESSAGE => row[m] |= 1 << q,
                COUNTING => row[2 * m + q] += 1,
                _ => row[m] += 1,
            }
        }
        *state = rule.to.into();
        if let Some(sent) = sent.get_mut(usize::from(rule.sends)) {
            *sent = if FORM == MESSAGE { *sent | 1 << p } else { *sent + 1 };
        }
        Ok(())
    }

    // The set after a step of a board that is not stopped, by a rule that the table has not: a stop, or 21.
    #[cold]
    fn with_stop(&self, stopped: u64, [p, r, m, q]: [u8; 4]) -> Result<u64, u8> {
        if r != STOP {
            return Err(21);
        }
        if m & q != 255 {
            return Err(23);
        }
        if stopped.count_ones() as usize + 1 + self.f > self.t {
            return Err(27);
        }
        Ok(stopped | 1 << p)
    }

    // The type that a rule sends; 8 for none, as for a stop.
    fn sent_by(&self, r: u8) -> usize {
        self.rules.get(usize::from(r)).map_or(8, |rule| rule.sends.into())
    }

    // The bundle in another form, where it runs and there is room.
    fn write(&self, bundle: &[u8], to: Form, out: &mut [u8]) -> Answer {
        let out = match out.get_mut(..bundle.len()) {
            Some(out) => out,
            None => return nothing_done(refused(30, 0)),
        };
        if let Err(refusal) = self.run(&mut [0; MOST_WORDS][..self.room()]) {
            return nothing_done(refusal);
        }
        out.copy_from_slice(bundle);
        let (before, trailer) = out.split_at_mut(bundle.len() - 8);
        let (_, steps) = before.split_at_mut(before.len() - self.steps.len());
        match (self.form, to) {
            (_, Form::Plain) => Self::write_plain(steps),
            (Form::Message, _) => self.write_tags(steps),
            (Form::Counting, _) => self.write_senders(steps),
            (Form::Plain, _) => self.write_chosen_tags(steps),
        }
        if (self.form, to) == (Form::Plain, Form::Message) {
            self.write_senders(steps);
        }
        trailer[7] = to.number();
        Answer { refusal: 0, place: 0, count: bundle.len() as u32 }
    }

    // Steps that run in any form, each source made 0.
    fn write_plain(steps: &mut [u8]) {
        for record in steps.chunks_exact_mut(4) {
            if record[2] != 255 {
                record[3] = 0;
            }
        }
    }

    // Steps that run in plain form, each with the correct tag where that is in transit; only the correct counts are followed.
    fn write_chosen_tags(&self, steps: &mut [u8]) {
        let mut got = [[0u8; 4]; 64];
        let mut sent = [0u8; 4];
        for record in steps.chunks_exact_mut(4) {
            if record[2] != 255 {
                let (p, m) = (usize::from(record[0]), usize::from(record[2]));
                record[3] = u8::from(got[p][m] == sent[m]);
                got[p][m] += 1 - record[3];
            }
            if let Some(sent) = sent.get_mut(self.sent_by(record[1])) {
                *sent += 1;
            }
        }
    }

    // Steps that run in message form, each sender made its tag.
    fn write_tags(&self, steps: &mut [u8]) {
        let correct = self.starts.len();
        for record in steps.chunks_exact_mut(4) {
            if record[2] != 255 {
                record[3] = u8::from(usize::from(record[3]) >= correct);
            }
        }
    }

    // Steps that run in counting form, each tag made the lowest sender in transit; only the sets are followed.
    fn write_senders(&self, steps: &mut [u8]) {
        let faulty = self.faulty();
        let mut got = [[0u64; 4]; 64];
        let mut sent = [0u64; 4];
        for record in steps.chunks_exact_mut(4) {
            let p = usize::from(record[0]);
            if record[2] != 255 {
                let m = usize::from(record[2]);
                let class = if record[3] == 0 { sent[m] } else { faulty };
                let q = (class & !got[p][m]).trailing_zeros();
                got[p][m] |= 1u64.wrapping_shl(q);
                record[3] = q as u8;
            }
            if let Some(sent) = sent.get_mut(self.sent_by(record[1])) {
                *sent |= 1 << p;
            }
        }
    }

    // The first possible step, of a board that is not stopped. Where it lacks nothing for a rule, that is the rule without a
    // message if it leads to another state, and with the first message in transit if not; if there is none, the other rules that
    // stay in that state are passed over. Where something lacks, it is a single message of a single type, and in transit.
    fn first<const FORM: u8>(&self, words: &[u64]) -> Option<Step> {
        let (states, rest) = words.split_at(self.starts.len());
        let (cells, rest) = rest.split_at(states.len() * self.row::<FORM>());
        let (sent, last) = rest.split_at(self.types);
        for ((p, &state), row) in states.iter().enumerate().zip(cells.chunks_exact(self.row::<FORM>())) {
            if last[0] >> p & 1 == 1 {
                continue;
            }
            let mut counts = [0i16; 4];
            for (m, count) in counts.iter_mut().enumerate().take(self.types) {
                *count = total::<FORM>(row, m);
            }
            let mut deaf = false;
            for (r, rule) in self.rules.iter().enumerate() {
                if state != u64::from(rule.from) || (deaf && rule.from == rule.to) {
                    continue;
                }
                let (mut lacking, mut lacks) = (0, 0);
                for (m, (&count, &least)) in counts.iter().zip(&rule.least).enumerate().take(self.types) {
                    if count < least {
                        lacking = m;
                        lacks += i32::from(least - count);
                    }
                }
                let tried = match lacks {
                    0 if rule.from != rule.to => {
                        return Some(Step { board: p as u8, rule: r as u8, kind: 255, source: 255 });
                    }
                    0 => 0..self.types,
                    1 => lacking..lacking + 1,
                    _ => continue,
                };
                for m in tried {
                    if let Some(source) = self.lowest::<FORM>(row, sent, m) {
                        return Some(Step { board: p as u8, rule: r as u8, kind: m as u8, source });
                    }
                }
                deaf |= lacks == 0;
            }
        }
        None
    }

    // The lowest source whose message of type m is in transit to the board of the row.
    fn lowest<const FORM: u8>(&self, row: &[u64], sent: &[u64], m: usize) -> Option<u8> {
        match FORM {
            MESSAGE => {
                let waiting = (sent[m] | self.faulty()) & !row[m];
                (waiting != 0).then_some(waiting.trailing_zeros() as u8)
            }
            COUNTING if row[2 * m] < sent[m] => Some(0),
            COUNTING => (row[2 * m + 1] < self.f as u64).then_some(1),
            _ => (row[m] < sent[m] + self.f as u64).then_some(0),
        }
    }
}

// How many messages of type m a board has: the ones of a set, two counts, or one.
fn total<const FORM: u8>(row: &[u64], m: usize) -> i16 {
    match FORM {
        MESSAGE => row[m].count_ones() as i16,
        COUNTING => (row[2 * m] + row[2 * m + 1]) as i16,
        _ => row[m] as i16,
    }
}
