//! The README's example: schedule W run, and the step that is possible then.

use macaroosh::{first_step, run, ECHO};

fn main() -> Result<(), Box<dyn std::error::Error>> {
    let bundle = std::fs::read("examples/w.bundle")?;
    let ran = run(&bundle, &ECHO)?;
    println!("{} steps; board 2 is in state {:?}", ran.steps, ran.configuration.state(2));
    println!("then {:?}", first_step(&bundle, &ECHO)?);
    Ok(())
}
