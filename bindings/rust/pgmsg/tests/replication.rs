//! The messages of replication as the crate gives them, whose bytes are written by hand in the layouts of "Streaming
//! Replication Protocol" in the PostgreSQL documentation. The core's tests have more of each (`replication.rt.in`).

mod common;

use common::{checked, fault_of, Numbers};
use pgmsg::replication::*;
use pgmsg::Refusal;

/// Each kind, as the CopyData that it is.
#[rustfmt::skip]
fn samples() -> Vec<(&'static [u8], Message<'static>)> {
    use Message::*;
    let piece = self::XLogData { start: 0x0001_0203_0405, end: u64::MAX - 7, clock: -2, content: b"l\0g" };
    let update = self::StandbyStatusUpdate { written: 0x300, flushed: 0x200, applied: 0x100, clock: 258, wants_reply: true };
    let feedback = self::HotStandbyFeedback { clock: 7, xmin: 0x8000_0001, xmin_epoch: 2, catalog_xmin: 3, catalog_xmin_epoch: u32::MAX };
    vec![
        (b"d\0\0\0\x20w\0\0\0\x01\x02\x03\x04\x05\xff\xff\xff\xff\xff\xff\xff\xf8\xff\xff\xff\xff\xff\xff\xff\xfel\0g", XLogData(piece)),
        (b"d\0\0\0\x16k\0\0\0\0\x01\0\0\x60\x80\0\0\0\0\0\0\0\x01", PrimaryKeepalive(self::PrimaryKeepalive { end: 0x0100_0060, clock: i64::MIN, wants_reply: true })),
        (b"d\0\0\0\x26r\0\0\0\0\0\0\x03\0\0\0\0\0\0\0\x02\0\0\0\0\0\0\0\x01\0\0\0\0\0\0\0\x01\x02\x01", StandbyStatusUpdate(update)),
        (b"d\0\0\0\x26r\0\0\0\0\0\0\0\0\0\0\0\0\0\0\0\0\0\0\0\0\0\0\0\0\0\0\0\0\0\0\0\0\0", StandbyStatusUpdate(Default::default())),
        (b"d\0\0\0\x1dh\0\0\0\0\0\0\0\x07\x80\0\0\x01\0\0\0\x02\0\0\0\x03\xff\xff\xff\xff", HotStandbyFeedback(feedback)),
        (b"d\0\0\0\x16n16384.tar\0/srv/\xe9\0", NewArchive(self::NewArchive { name: b"16384.tar", location: b"/srv/\xe9" })),
        (b"d\0\0\0\x05m", Manifest(self::Manifest)),
        (b"d\0\0\0\x09d\0tar", BackupData(self::BackupData { content: b"\0tar" })),
        (b"d\0\0\0\x0dp\x80\0\0\0\0\0\0\x01", Progress(self::Progress { processed: 0x8000_0000_0000_0001 })),
    ]
}

#[test]
fn each_kind_is_read_as_it_is_written() {
    for (bytes, message) in samples() {
        let mut out = b"before".to_vec();
        assert_eq!(message.write(&mut out), Ok(()));
        assert_eq!(out.strip_prefix(b"before"), Some(bytes), "{message:?}");
        assert_eq!(Message::read(&bytes[5..]), Ok(message));
        assert_eq!(message.letter(), bytes[5]);
    }
}

#[test]
fn what_is_cut_off_or_changed_is_read_back_or_refused() {
    let mut numbers = Numbers::new(0x9e37_79b9_7f4a_7c15);
    for (bytes, _) in samples() {
        let data = &bytes[5..];
        let cut = (0..data.len()).map(|len| data[..len].to_vec()).collect::<Vec<_>>();
        let changed = [(); 500].map(|()| numbers.changed(data));
        for data in cut.into_iter().chain(changed) {
            if let Some(message) = checked(&data, Message::read(&data)) {
                let mut out = Vec::new();
                assert_eq!(message.write(&mut out), Ok(()));
                assert_eq!((out.len(), Message::read(&out[5..])), (data.len() + 5, Ok(message)));
            }
        }
    }
}

#[test]
fn what_is_refused() {
    assert_eq!(fault_of(Message::read(b"Z")), (Refusal::UnknownMessageType, 0));
    assert_eq!(fault_of(Message::read(b"na\0b")), (Refusal::MissingNul, 3));
    let data = vec![0; i32::MAX as usize - 3];
    for (refusal, message) in [
        (Refusal::TextHoldsNul, Message::NewArchive(NewArchive { name: b"a", location: b"\0" })),
        (Refusal::MessageTooLong, Message::BackupData(BackupData { content: &data })),
    ] {
        let mut out = b"before".to_vec();
        assert_eq!(message.write(&mut out), Err(refusal));
        assert_eq!(out, b"before");
    }
    assert_eq!(fault_of(Message::read(&data)), (Refusal::BodyTooLong, 0));
}
