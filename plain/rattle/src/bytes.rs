//! Bytes that are shared, where each request for memory may be refused. The crate `bytes` aborts then, and asks for memory
//! at other times.

mod block;
mod growing;
mod part;
mod pointer;
mod shared;

pub use growing::BytesMut;
pub use shared::Bytes;

#[cfg(test)]
mod tests {
    use super::*;
    use crate::alloc::Global;
    use rust_alloc::vec::Vec;

    fn filled(bytes: &[u8], room: usize) -> BytesMut {
        let mut filled = BytesMut::with_capacity(Global, room).unwrap();
        filled.extend_from_slice(bytes).unwrap();
        filled
    }

    #[test]
    fn parts_share_their_memory_and_outlive_each_other() {
        let mut all = Bytes::copy_from_slice(Global, b"abcdef").unwrap();
        let front = all.split_to(2).unwrap();
        let middle = all.slice(1..=2).unwrap();
        assert_eq!((&*front, &*middle, &*all), (&b"ab"[..], &b"de"[..], &b"cdef"[..]));
        assert_eq!(middle.as_ptr(), front.as_ptr().wrapping_add(3));
        drop((all, front));
        assert_eq!(&*middle, b"de");
    }

    #[test]
    fn what_is_added_behind_shared_bytes_leaves_them() {
        let mut buffer = filled(b"abcd", 8);
        let front = buffer.freeze_to(3).unwrap();
        buffer.extend_from_slice(b"efgh").unwrap();
        assert_eq!((&*front, buffer.as_slice()), (&b"abc"[..], &b"defgh"[..]));
        assert_eq!(buffer.capacity(), 5);
        buffer.extend_from_slice(b"i").unwrap();
        assert_eq!((&*front, buffer.as_slice()), (&b"abc"[..], &b"defghi"[..]));
    }

    #[test]
    fn bytes_of_one_owner_are_added_to_in_their_block() {
        let mut whole = filled(b"abcd", 8).freeze().unwrap();
        let at = whole.as_ptr();
        whole.advance(1);
        let shared = whole.clone().unwrap();
        let whole = whole.try_into_mut().unwrap_err();
        drop(shared);
        let mut whole = whole.try_into_mut().unwrap();
        assert_eq!((whole.as_slice(), whole.capacity()), (&b"bcd"[..], 7));
        whole.extend_reserved(b"efgh");
        assert_eq!(
            (whole.as_slice(), whole.as_slice().as_ptr()),
            (&b"bcdefgh"[..], at.wrapping_add(1))
        );
    }

    #[test]
    fn room_is_made_in_front_behind_or_anew() {
        let mut buffer = filled(b"abcdef", 8);
        let at = buffer.as_slice().as_ptr();
        buffer.advance(4);
        buffer.reserve(5).unwrap();
        assert_eq!((buffer.as_slice(), buffer.as_slice().as_ptr()), (&b"ef"[..], at));
        buffer.reserve(7).unwrap();
        assert_eq!(buffer.as_slice(), b"ef");
        assert_eq!(buffer.capacity(), 16);
    }

    #[test]
    fn nothing_needs_no_memory() {
        assert_eq!(Bytes::new(), Bytes::from_static(b""));
        assert_eq!(BytesMut::new(Global).freeze().unwrap().len(), 0);
        let mut none = BytesMut::new(Global);
        none.reserve(1).unwrap();
        assert_eq!(none.capacity(), 8);
        assert!(BytesMut::with_capacity(Global, usize::MAX).is_err());
        assert!(filled(b"a", 1).reserve(usize::MAX).is_err());
    }

    #[test]
    #[should_panic]
    fn bytes_without_room_are_not_added() {
        filled(b"ab", 2).extend_reserved(b"c");
    }

    #[test]
    fn threads_share_a_block() {
        let all = Bytes::copy_from_slice(Global, &[7; 64]).unwrap();
        let parts: Vec<_> = (0..8).map(|from| all.slice(from * 8..).unwrap()).collect();
        drop(all);
        std::thread::scope(|threads| {
            for part in parts {
                threads.spawn(move || assert!(part.iter().all(|byte| *byte == 7)));
            }
        });
    }
}
