//! 01, 'Checking and comparing': the copying call.

use crate::answer::Answer;
use crate::call::with_instance;
use crate::instance::Instance;
use crate::schema::Schema;

/// Writes the instance it read.
pub fn copy(schema: &[u8], instance: &[u8], out: &mut [u8]) -> Answer {
    with_instance(schema, instance, |schema, instance| deliver(schema, instance, out))
}

/// Writes `instance` and gives its length, or 14 if `out` is shorter.
#[inline(always)]
pub(crate) fn deliver(schema: &Schema, instance: Instance, out: &mut [u8]) -> Result<u64, Answer> {
    let length = instance.length(schema);
    let out = out.get_mut(..length).ok_or(Answer::without_file(14))?;
    instance.write(schema, out);
    Ok(length as u64)
}
