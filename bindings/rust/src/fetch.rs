//! What calls of the library give: statuses, and bytes that may not fit at once.

use crate::error::Error;
use crate::ffi::{self, BytesHandle, Outcome, WorldHandle};

/// How many bytes of a reply or a code are fetched at once.
const ROOM: usize = 1024;

/// Whether a call with this status did what it is for.
pub(crate) fn done(status: i32) -> Result<(), Error> {
    match status {
        ffi::OK => Ok(()),
        status => Err(Error::of(status)),
    }
}

/// How a world stands, as one line of JSON.
pub(crate) fn status_of(world: &mut WorldHandle) -> Result<String, Error> {
    let status = fetch(|_, out| world.status(out))?;
    String::from_utf8(status).map_err(|error| Error::Reply(error.to_string()))
}

/// The moment of the log's last entry of a world.
pub(crate) fn moment_of(world: &mut WorldHandle) -> Result<u64, Error> {
    let status = status_of(world)?;
    let moment = status.split_once("\"moment\":").map(|it| it.1);
    let digits = moment.and_then(|it| it.split(',').next());
    let number = digits.and_then(|it| it.parse().ok());
    number.ok_or_else(|| Error::Reply(status.clone()))
}

/// The bytes that a call gives into a closed handle.
pub(crate) fn bytes_given(call: impl FnOnce(&mut BytesHandle) -> i32) -> Result<Vec<u8>, Error> {
    let mut bytes = BytesHandle::closed();
    done(call(&mut bytes))?;
    bytes_of(&mut bytes)
}

/// The bytes that a handle holds.
pub(crate) fn bytes_of(bytes: &mut BytesHandle) -> Result<Vec<u8>, Error> {
    fetch(|_, out| bytes.copy_from(0, out))
}

/// All bytes of what a call writes as far as it fits; the call is made again if it did not fit, and
/// then it is not the first one.
pub(crate) fn fetch(mut call: impl FnMut(bool, &mut [u8]) -> Outcome) -> Result<Vec<u8>, Error> {
    let mut room = [0; ROOM];
    let outcome = call(true, &mut room);
    done(outcome.status)?;
    if outcome.length <= ROOM {
        return Ok(room[..outcome.length].to_vec());
    }
    let mut bytes = vec![0; outcome.length];
    done(call(false, &mut bytes).status)?;
    Ok(bytes)
}
