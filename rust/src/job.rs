//! Job texts.

use crate::{ffi, Refusal, Table};

/// An output of so many bytes is never too short for a job text.
pub const MOST_JOB_BYTES: usize = 11_336;

/// Writes a table read as Büchi 1, which is what the one-mark translation makes, as a job text; gives the text's bytes. Zeros stand behind them.
///
/// # Errors
///
/// [`Cause`](crate::Cause)'s numbers 1 to 7 under Büchi 1, then 23 and 11. A refusal leaves the output as it was.
///
/// ```
/// use mukhadero::{write_job, Table, MOST_JOB_BYTES};
///
/// let table = Table { states: 1, start: 0, from: &[0], to: &[0], marks: &[0b1] };
/// let mut out = [0; MOST_JOB_BYTES];
/// let text = write_job(&table, &mut out)?;
/// assert_eq!(text, b"form=2\nstates=1\nstart=0\nkind=buchi\ncount=1\nneed=-\nedges=1\nedge=0,0,00000001\nend=job\n");
/// # Ok::<(), mukhadero::Refusal>(())
/// ```
pub fn write_job<'o>(table: &Table, out: &'o mut [u8]) -> Result<&'o [u8], Refusal> {
    let written = ffi::write_job(table, out);
    if written.number != 0 {
        return Err(Refusal::of(written.number, written.place));
    }
    Ok(&out[..written.length as usize])
}
