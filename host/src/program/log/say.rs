//! What `log` has to say: the log of a bundle that reading does not refuse, in another form of its translation.

use crate::replies::{self, Question, Reply};
use crate::show::{self, Style};
use crate::text::unpack::line;
use crate::why;
use macaroosh::calls::{run, translate_to, Answer, Step};
use macaroosh::parts::Parts;
use macaroosh::{Form, MOST_WORDS};
use std::path::Path;

/// The log, which goes to `path`, or why there is none.
pub fn reply(question: &Question, path: Option<&Path>) -> Reply {
    let Question { bundle, standing, style, .. } = *question;
    let plain = style == Style::Plain;
    let steps = match steps(bundle, standing) {
        Ok(steps) => steps,
        Err(answer) => {
            let words = |refusal| replies::told(refusal, why::of_bundle(bundle, standing, refusal));
            let told = answer.refused().map_or(String::new(), words);
            return Reply::of(Vec::new(), answer, told, plain);
        }
    };
    if let Some(number) = steps.iter().position(|&step| !sayable(step)) {
        return unsaid(number, steps[number], plain);
    }
    let log: Vec<u8> = steps.iter().flat_map(|&step| line(Form::Message, step).into_bytes()).collect();
    let (bytes, lines) = (show::counted(log.len(), "byte"), show::counted(steps.len(), "line"));
    let told = format!("wrote {bytes}{}: the log of a bundle, {lines}\n", show::to(path));
    let answer = Answer { refusal: 0, place: 0, count: log.len() as u32 };
    Reply::of(log, answer, told, plain)
}

// The steps in message form. There they need not run; the translation of another form refuses what running refuses.
fn steps(bundle: &[u8], standing: &[u8]) -> Result<Vec<Step>, Answer> {
    let read = run(bundle, standing, &mut [0; MOST_WORDS]);
    if !read.left_a_configuration() {
        return Err(read);
    }
    let mut messages = bundle.to_vec();
    if Form::of_bundle(bundle) != Some(Form::Message) {
        let answer = translate_to(bundle, standing, u64::from(Form::Message.number()), &mut messages);
        if answer.refused().is_some() {
            return Err(answer);
        }
    }
    Ok(Parts::of(&messages, standing).map_or(Vec::new(), |parts| parts.steps().collect()))
}

// Numbers go to 254; type and source may both be 255, which is no message.
fn sayable(step: Step) -> bool {
    let Step { board, rule, kind, source } = step;
    board < 255 && rule < 255 && (step.silent() || kind < 255 && source < 255)
}

fn unsaid(number: usize, step: Step, plain: bool) -> Reply {
    let Step { board, rule, .. } = step;
    let told = match plain {
        true => format!("unsaid {number}\n"),
        false => format!(
            "no line of a log says step {number}: board {board}, rule {rule}, {}\n\
             the numbers of a line go to 254\n",
            show::message_of(step)
        ),
    };
    Reply { output: Vec::new(), told: Some(told), refused: true, kept: None }
}
