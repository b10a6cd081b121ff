//! A script run by a call of the library.
use crate::error::Error;
use crate::options::Options;
use crate::status::Status;

const FIRST_ROOM: usize = 65_536;
const MORE_ROOM: u8 = 5;

extern "C" {
    /// As cepage.h has it.
    fn cepage_run(
        script: *const u8,
        script_len: usize,
        fuel: u32,
        trace: bool,
        url: *const u8,
        url_len: usize,
        boundary: *const u8,
        boundary_len: usize,
        out: *mut u8,
        cap: usize,
        written: *mut usize,
    ) -> u8;
}

/// The status and the transcript of a script. It is run again with more room where its transcript is longer.
pub(crate) fn run(script: &[u8], options: &Options) -> Result<(Status, Vec<u8>), Error> {
    let mut room = FIRST_ROOM;
    loop {
        let mut out: Vec<u8> = Vec::new();
        if out.try_reserve_exact(room).is_err() {
            return Ok((Status::NoMemory, out));
        }
        let number = call(script, options, &mut out);
        match Status::of(number.into()) {
            Some(_) if number == MORE_ROOM => room = room.saturating_mul(8),
            Some(status) => return Ok((status, out)),
            None => {
                return Err(Error::ProgramDied { name: "the library".into(), how: format!("with status {number}") })
            }
        }
    }
}

/// Calls the library, with the room that `out` has, and gives its status.
fn call(script: &[u8], options: &Options, out: &mut Vec<u8>) -> u8 {
    let (url, boundary) = (options.url.as_bytes(), options.boundary.as_bytes());
    let mut written = 0;
    // SAFETY: no slice and no vector has a null pointer; each length is that of what its pointer points to; `out` and
    // `written` overlap nothing, and nobody writes to the others during the call.
    let number = unsafe {
        cepage_run(
            script.as_ptr(),
            script.len(),
            options.fuel,
            options.trace,
            url.as_ptr(),
            url.len(),
            boundary.as_ptr(),
            boundary.len(),
            out.as_mut_ptr(),
            out.capacity(),
            &mut written,
        )
    };
    // SAFETY: so many bytes were written, and no more than there was room for.
    unsafe { out.set_len(written) };
    number
}
