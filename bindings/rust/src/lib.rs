//! Avro messages, rewritten from their writer's schema into a reader's, by libavrogate.
//!
//! ```
//! let mut transcoder = avrogate::Transcoder::open(r#""int""#, r#"["null", "long"]"#)?;
//! assert_eq!(transcoder.transcode(b"\x06")?, b"\x02\x06");
//! # Ok::<(), avrogate::Error>(())
//! ```
mod error;
mod ffi;

pub use error::{EnvelopeError, Error, Fault, MalformedKind, MismatchKind};
use ffi::{Held, Item, Report};

const OK: u32 = 0;
const ROOM_TOO_SMALL: u32 = 1;
const CANNOT_READ: u32 = 11;

/// The program of one pair of schemas.
pub struct Transcoder {
    held: Held,
    room: Vec<u8>,
}

// SAFETY: that what a transcoder holds can be sent is proved with the library, and `&mut self` gives it to one call at a
// time.
unsafe impl Send for Transcoder {}

impl Transcoder {
    /// Returns the transcoder of a pair of schemas, by their texts.
    pub fn open(writer: &str, reader: &str) -> Result<Transcoder, Error> {
        let mut transcoder = Transcoder {
            held: Held {
                held: std::ptr::null_mut(),
                is_open: false,
            },
            room: vec![0; 4096],
        };
        let mut fault = 0;
        // SAFETY: what is held was made closed, and each pointer leads to what its length says.
        let status = unsafe {
            let held = &mut transcoder.held;
            ffi::avrogate_open(
                held,
                writer.as_ptr(),
                writer.len(),
                reader.as_ptr(),
                reader.len(),
                &mut fault,
            )
        };
        if status == OK {
            Ok(transcoder)
        } else {
            Err(Error::of_status(status, fault))
        }
    }

    /// Returns the reader's encoding of a payload.
    pub fn transcode(&mut self, payload: &[u8]) -> Result<&[u8], Error> {
        self.output(|held, room, report| {
            // SAFETY: as of `open`; the room is this transcoder's own.
            unsafe {
                ffi::avrogate_transcode(
                    held,
                    payload.as_ptr(),
                    payload.len(),
                    room.as_mut_ptr(),
                    room.len(),
                    report,
                )
            }
        })
    }

    /// Returns the reader's message of a writer's, in the wire format of Confluent's registry.
    pub fn transcode_message(
        &mut self,
        writer_id: u32,
        reader_id: u32,
        message: &[u8],
    ) -> Result<&[u8], Error> {
        self.output(|held, room, report| {
            let (at, length) = (message.as_ptr(), message.len());
            // SAFETY: as of `transcode`.
            unsafe {
                let (room, room_length) = (room.as_mut_ptr(), room.len());
                ffi::avrogate_transcode_message(
                    held,
                    writer_id,
                    reader_id,
                    at,
                    length,
                    room,
                    room_length,
                    report,
                )
            }
        })
    }

    /// Has a call write into the room, which grows where it is too small.
    fn output(
        &mut self,
        mut call: impl FnMut(&mut Held, &mut [u8], &mut Report) -> u32,
    ) -> Result<&[u8], Error> {
        let mut report = Report::default();
        loop {
            match call(&mut self.held, &mut self.room, &mut report) {
                OK => return Ok(&self.room[..report.length]),
                ROOM_TOO_SMALL => self.room = vec![0; report.length],
                _ => return Err(Error::of(&report)),
            }
        }
    }

    /// Returns what becomes of each payload, by as few calls of the library as the room for their outputs allows.
    pub fn transcode_batch(&mut self, payloads: &[&[u8]]) -> Vec<Result<Vec<u8>, Error>> {
        let mut results = vec![Ok(Vec::new()); payloads.len()];
        let mut waiting: Vec<usize> = (0..payloads.len()).collect();
        let mut need = 64 + 2 * payloads.iter().map(|payload| payload.len()).sum::<usize>();
        while !waiting.is_empty() {
            (waiting, need) = self.batch(payloads, &waiting, need, &mut results);
        }
        results
    }

    /// Finds what it can by one call. Returns which payloads still wait, and how much room they need.
    fn batch(
        &mut self,
        payloads: &[&[u8]],
        waiting: &[usize],
        need: usize,
        results: &mut [Result<Vec<u8>, Error>],
    ) -> (Vec<usize>, usize) {
        let mut buffer = Vec::new();
        let mut items = vec![Item::default(); waiting.len()];
        for (item, &index) in items.iter_mut().zip(waiting) {
            (item.payload_offset, item.payload_length) = (buffer.len(), payloads[index].len());
            buffer.extend_from_slice(payloads[index]);
        }
        if self.room.len() < need {
            self.room = vec![0; need];
        }
        let (room, room_length) = (self.room.as_mut_ptr(), self.room.len());
        // SAFETY: as of `transcode`; there are so many items.
        unsafe {
            let held = &mut self.held;
            ffi::avrogate_transcode_batch(
                held,
                buffer.as_ptr(),
                buffer.len(),
                room,
                room_length,
                items.as_mut_ptr(),
                items.len(),
            );
        }
        let (mut still, mut more) = (Vec::new(), 0);
        for (item, &index) in items.iter().zip(waiting) {
            match item.report.status {
                OK => {
                    results[index] =
                        Ok(self.room[item.output_offset..][..item.report.length].to_vec())
                }
                ROOM_TOO_SMALL => {
                    still.push(index);
                    more += item.report.length;
                }
                _ => results[index] = Err(Error::of(&item.report)),
            }
        }
        (still, more)
    }
}

impl Drop for Transcoder {
    fn drop(&mut self) {
        // SAFETY: as of `open`.
        unsafe { ffi::avrogate_close(&mut self.held) }
    }
}

/// Returns whether the reader can read all data of the writer, but for bytes that are no UTF-8 where it has a string.
pub fn can_read(writer: &str, reader: &str) -> Result<bool, Error> {
    let mut fault = 0;
    // SAFETY: each pointer leads to what its length says.
    let status = unsafe {
        ffi::avrogate_can_read(
            writer.as_ptr(),
            writer.len(),
            reader.as_ptr(),
            reader.len(),
            &mut fault,
        )
    };
    match status {
        OK | CANNOT_READ => Ok(status == OK),
        _ => Err(Error::of_status(status, fault)),
    }
}

/// Returns the version of the library: its three numbers.
pub fn version() -> (u32, u32, u32) {
    // SAFETY: it asks for nothing.
    let number = unsafe { ffi::avrogate_version() };
    (number / 10000, number / 100 % 100, number % 100)
}
