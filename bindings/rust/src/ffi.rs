//! The calls of libavrogate. avrogate.h says what each asks and tells.
use std::os::raw::{c_char, c_void};

/// A transcoder, as the library has it.
#[repr(C)]
pub struct Held {
    pub held: *mut c_void,
    pub is_open: bool,
}

/// What is reported of a payload or a message.
#[repr(C)]
#[derive(Clone, Copy, Default)]
pub struct Report {
    pub status: u32,
    pub kind: u32,
    pub length: usize,
    pub offset: usize,
    pub writer_node: usize,
    pub reader_node: usize,
    pub writer_id: u32,
}

/// An item of a batch.
#[repr(C)]
#[derive(Clone, Copy, Default)]
pub struct Item {
    pub payload_offset: usize,
    pub payload_length: usize,
    pub output_offset: usize,
    pub report: Report,
}

extern "C" {
    pub fn avrogate_open(
        transcoder: *mut Held,
        writer: *const u8,
        writer_length: usize,
        reader: *const u8,
        reader_length: usize,
        fault: *mut u32,
    ) -> u32;
    pub fn avrogate_close(transcoder: *mut Held);
    pub fn avrogate_transcode(
        transcoder: *mut Held,
        payload: *const u8,
        payload_length: usize,
        room: *mut u8,
        room_length: usize,
        report: *mut Report,
    ) -> u32;
    pub fn avrogate_transcode_message(
        transcoder: *mut Held,
        writer_id: u32,
        reader_id: u32,
        message: *const u8,
        message_length: usize,
        room: *mut u8,
        room_length: usize,
        report: *mut Report,
    ) -> u32;
    pub fn avrogate_transcode_batch(
        transcoder: *mut Held,
        payloads: *const u8,
        payloads_length: usize,
        room: *mut u8,
        room_length: usize,
        items: *mut Item,
        item_count: usize,
    ) -> u32;
    pub fn avrogate_can_read(
        writer: *const u8,
        writer_length: usize,
        reader: *const u8,
        reader_length: usize,
        fault: *mut u32,
    ) -> u32;
    pub fn avrogate_status_text(status: u32, room: *mut c_char, room_length: usize) -> usize;
    pub fn avrogate_version() -> u32;
}
