//! The functions that the timer calls, of any layer.

/// The bytes that C names by a pointer and a length.
///
/// # Safety
/// `len` bytes are at `at`, and stay as they are as long as the result is used.
pub unsafe fn bytes_at<'a>(at: *const u8, len: usize) -> &'a [u8] {
    std::slice::from_raw_parts(at, len)
}

/// Copies what was encoded to `out`, and gives its length, or 0 where it was refused or is longer
/// than `room`.
///
/// # Safety
/// `out` has room for `room` bytes.
pub unsafe fn give(buf: Option<&[u8]>, out: *mut u8, room: usize) -> usize {
    match buf {
        Some(buf) if buf.len() <= room => {
            std::ptr::copy_nonoverlapping(buf.as_ptr(), out, buf.len());
            buf.len()
        }
        _ => 0,
    }
}

/// Exports a layer to C, under the names of `timer/layer.h`.
#[macro_export]
macro_rules! export {
    ($layer:ty) => {
        type Exported = $layer;

        #[no_mangle]
        unsafe extern "C" fn tw_encode_prepared(
            script: *const u8,
            len: usize,
            times: usize,
            out: *mut u8,
            room: usize,
        ) -> usize {
            let buf = $crate::encode_prepared::<Exported>($crate::bytes_at(script, len), times);
            $crate::give(buf.as_deref(), out, room)
        }

        #[no_mangle]
        unsafe extern "C" fn tw_encode_script(
            script: *const u8,
            len: usize,
            times: usize,
            out: *mut u8,
            room: usize,
        ) -> usize {
            let buf = $crate::encode_script::<Exported>($crate::bytes_at(script, len), times);
            $crate::give(buf.as_deref(), out, room)
        }

        #[no_mangle]
        unsafe extern "C" fn tw_decode_prepared(
            stream: *const u8,
            len: usize,
            times: usize,
            full: u8,
        ) -> u64 {
            let stream = $crate::bytes_at(stream, len);
            $crate::decode_prepared::<Exported>(stream, times, full != 0)
        }

        #[no_mangle]
        unsafe extern "C" fn tw_decode_stream(
            stream: *const u8,
            len: usize,
            times: usize,
            full: u8,
        ) -> u64 {
            let stream = $crate::bytes_at(stream, len);
            $crate::decode_pieces::<Exported>(stream, len, times, full != 0)
        }

        #[no_mangle]
        unsafe extern "C" fn tw_decode_pieces(
            stream: *const u8,
            len: usize,
            piece: usize,
            times: usize,
            full: u8,
        ) -> u64 {
            let stream = $crate::bytes_at(stream, len);
            $crate::decode_pieces::<Exported>(stream, piece, times, full != 0)
        }
    };
}
