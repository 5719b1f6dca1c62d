//! Any command of the program, over files in memory.

use crate::raw::{simcore_run, Fault};
use crate::{refused, Error, FILES_REFUSED, NO_ROOM};

/// How a command of the program ended, what it printed, and what is then held under the name of OUT.
#[derive(Clone, Debug, PartialEq, Eq)]
pub struct Ran {
    pub status: i32,
    pub text: String,
    pub out: Vec<u8>,
}

/// Bytes behind their length.
fn pack(bytes: &[u8], packed: &mut Vec<u8>) -> Result<(), Error> {
    let length = u32::try_from(bytes.len()).map_err(|_| Error::Files)?;
    packed.extend(length.to_le_bytes());
    packed.extend(bytes);
    Ok(())
}

/// Any command of the program, but a talk, over files in memory, which are handed in by their names. A byte 0 in a word begins another.
pub fn run(words: &[&str], files: &[(&str, &[u8])]) -> Result<Ran, Error> {
    let spelled: Vec<u8> = words.iter().flat_map(|word| word.bytes().chain([0])).collect();
    let mut packed = Vec::new();
    for (name, content) in files {
        pack(name.as_bytes(), &mut packed)?;
        pack(content, &mut packed)?;
    }
    let (mut text, mut out, mut text_n, mut out_n) = (vec![0; 4096], vec![0; 4096], 0, 0);
    loop {
        let status = unsafe {
            simcore_run(
                spelled.as_ptr(),
                spelled.len(),
                packed.as_ptr(),
                packed.len(),
                text.as_mut_ptr(),
                text.len(),
                &mut text_n,
                out.as_mut_ptr(),
                out.len(),
                &mut out_n,
            )
        };
        match status {
            9 | FILES_REFUSED => return Err(refused(status, &Fault::default())),
            NO_ROOM => {
                text.resize(text.len().max(text_n as usize), 0);
                out.resize(out.len().max(out_n as usize), 0);
            }
            status => {
                text.truncate(text_n as usize);
                out.truncate(out_n as usize);
                return Ok(Ran { status, text: String::from_utf8_lossy(&text).into_owned(), out });
            }
        }
    }
}
