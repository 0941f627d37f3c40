//! A bundle in another form.

use crate::library::calls;
use crate::terms::form::Form;
use crate::terms::refusals::Refusal;
use crate::typed::owned;

/// The bundle in another form. Its own form is refused (31), and so is a schedule that does not run, as `run` refuses it.
pub fn translate(bundle: &[u8], standing: &[u8], form: Form) -> Result<Vec<u8>, Refusal> {
    owned(bundle.len(), |out| translate_into(bundle, standing, form, out))
}

/// The same to lent bytes, of which as many as the bundle has are enough: how many were written. A refusal leaves them as they
/// were.
pub fn translate_into(bundle: &[u8], standing: &[u8], form: Form, out: &mut [u8]) -> Result<usize, Refusal> {
    calls::translate_to(bundle, standing, u64::from(form.number()), out).result()
}
