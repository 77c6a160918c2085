//! The crate on pairs of schemas and payloads whose answers are known, in the file that CASES names.
use avrogate::{can_read, version, EnvelopeError, Error, Fault, Transcoder};
use std::fs;
use std::thread;

const WRITER: &str = r#"{"type":"record","name":"T","fields":[{"name":"a","type":"long"},{"name":"b","type":"string"}]}"#;
const READER: &str = r#"{"type":"record","name":"T","fields":[{"name":"b","type":["null","string"]},{"name":"c","type":"int","default":7}]}"#;
const PAYLOAD: &[u8] = b"\x36\x06foo";
const OUTPUT: &[u8] = b"\x02\x06foo\x0e";

fn hex_of(bytes: &[u8]) -> String {
    if bytes.is_empty() {
        "-".into()
    } else {
        bytes.iter().map(|byte| format!("{byte:02x}")).collect()
    }
}

fn bytes_of(hex: &str) -> Vec<u8> {
    let digits = hex.trim_start_matches('-').as_bytes();
    digits
        .chunks(2)
        .map(|pair| u8::from_str_radix(std::str::from_utf8(pair).unwrap(), 16).unwrap())
        .collect()
}

/// The answer that a result stands for.
fn line(result: Result<&[u8], Error>) -> String {
    match result {
        Ok(output) => format!("done {}", hex_of(output)),
        Err(Error::Mismatch {
            kind,
            writer_node,
            reader_node,
        }) => format!("mismatch {kind:?} {writer_node} {reader_node}"),
        Err(Error::Malformed { kind, offset }) => format!("malformed {kind:?} at {offset}"),
        Err(Error::BadWriter(fault)) => format!("bad schema 1 {fault:?}"),
        Err(Error::BadReader(fault)) => format!("bad schema 2 {fault:?}"),
        Err(error) => error.to_string(),
    }
}

fn compare(transcoder: &mut Transcoder, rows: &[(Vec<u8>, &str)]) {
    for (payload, wanted) in rows {
        assert_eq!(line(transcoder.transcode(payload)), *wanted);
        let wanted = match wanted.strip_prefix("done ") {
            Some(output) => format!("done 0000000009{}", output.trim_start_matches('-')),
            None => wanted.to_string(),
        };
        let message = [b"\0\0\0\0\x07", payload.as_slice()].concat();
        assert_eq!(line(transcoder.transcode_message(7, 9, &message)), wanted);
    }
    let payloads: Vec<&[u8]> = rows.iter().map(|(payload, _)| payload.as_slice()).collect();
    for (result, (_, wanted)) in transcoder.transcode_batch(&payloads).iter().zip(rows) {
        assert_eq!(line(result.as_deref().map_err(|error| *error)), *wanted);
    }
}

#[test]
fn cases_are_answered() {
    let text = fs::read_to_string(std::env::var("CASES").expect("CASES names a file")).unwrap();
    let (mut lines, mut count) = (text.split('\n'), 0);
    while let Some(Ok(rows)) = lines.next().map(str::parse::<usize>) {
        let (writer, reader) = (lines.next().unwrap(), lines.next().unwrap());
        let rows: Vec<_> = lines
            .by_ref()
            .take(rows)
            .map(|row| row.split_once(' ').unwrap())
            .collect();
        let rows: Vec<_> = rows
            .into_iter()
            .map(|(hex, wanted)| (bytes_of(hex), wanted))
            .collect();
        count += rows.len();
        match Transcoder::open(writer, reader) {
            Ok(mut transcoder) => compare(&mut transcoder, &rows),
            Err(error) => rows
                .iter()
                .for_each(|(_, wanted)| assert_eq!(line(Err(error)), *wanted)),
        }
    }
    assert!(count > 0);
    println!("{count} payloads alone, as messages and in batches");
}

#[test]
fn messages_are_rewritten() {
    let mut transcoder = Transcoder::open(WRITER, READER).unwrap();
    let message = [b"\0\0\0\x01\x02", PAYLOAD].concat();
    assert_eq!(
        transcoder.transcode_message(258, 3, &message).unwrap(),
        [b"\0\0\0\0\x03", OUTPUT].concat()
    );
    assert_eq!(
        transcoder.transcode_message(259, 3, &message),
        Err(Error::OtherWriter { id: 258 })
    );
    let short = transcoder.transcode_message(258, 3, b"\0\0\0\x01");
    assert_eq!(short, Err(Error::BadEnvelope(EnvelopeError::ShortEnvelope)));
    let magic = transcoder.transcode_message(258, 3, b"\x01\0\0\x01\x02");
    assert_eq!(magic, Err(Error::BadEnvelope(EnvelopeError::BadMagic)));
}

#[test]
fn safety_and_version_are_told() {
    assert_eq!(can_read(WRITER, READER), Ok(true));
    assert_eq!(can_read(READER, WRITER), Ok(false));
    assert_eq!(can_read("{", READER), Err(Error::BadWriter(Fault::NotJson)));
    assert_eq!(
        Error::BadWriter(Fault::NotJson).to_string(),
        "the writer's text is no schema: NotJson"
    );
    assert_eq!(version(), (0, 1, 0));
}

#[test]
fn another_thread_may_use_it_next() {
    let mut transcoder = Transcoder::open(WRITER, READER).unwrap();
    assert_eq!(transcoder.transcode(PAYLOAD), Ok(OUTPUT));
    let there = thread::spawn(move || transcoder.transcode(PAYLOAD).map(<[u8]>::to_vec));
    assert_eq!(there.join().unwrap(), Ok(OUTPUT.to_vec()));
}
