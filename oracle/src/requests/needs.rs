//! Requests whose declared bytes aren't all there: the need, exactly so many bytes more, and one fewer.

use super::messages::request;
use super::random::Rng;
use super::Emit;

/// A message with an extended header, `APP`, `CTX` and one argument counted, that declares so many bytes of payload, of which some are there.
fn extended(info: u8, declared: u8, there: &[u8]) -> Vec<u8> {
    let mut bytes = vec![0x21, 0, 0, 14 + declared, info, 1, b'A', b'P', b'P', 0, b'C', b'T', b'X', 0];
    bytes.extend(there);
    bytes
}

/// A plain message of four bytes of payload, of which some are there.
fn plain(there: &[u8]) -> Vec<u8> {
    [&[0x20, 7, 0, 8], there].concat()
}

/// Behind a byte of junk and a storage header.
fn stored(message: &[u8]) -> Vec<u8> {
    [&[0xff], &b"DLT\x01"[..], &[0; 12], message].concat()
}

/// Every need by the step that gives it: of the headers, of the declared length, and of arguments past the declared end.
pub fn examples(_: &mut Rng, emit: Emit) {
    for bytes in [&[0x20][..], &[0x20, 0]] {
        emit(&request(false, &[], bytes));
    }
    for there in [&[0][..], &[0, 0xff, 0xff, 0xff], &[0, 0xff, 0xff], &[0, 0, 0], &[0, 0, 0, 0x44]] {
        emit(&request(false, &[], &plain(there)));
        emit(&request(true, &[], &stored(&plain(there))));
    }
    for info in [0x40, 0x41] {
        for there in [&[][..], &[0x44], &[0], &[0x11, 0, 0], &[0x11, 0, 0, 0], &[0x11, 0, 0, 0, 1]] {
            emit(&request(false, &[], &extended(info, 1, there)));
            emit(&request(true, &[], &stored(&extended(info, 1, there))));
        }
    }
}

/// Each message info, with a byte missing and with all bytes: none is refused.
pub fn every_info(_: &mut Rng, emit: Emit) {
    for info in 0..=255 {
        for there in [&[0x11, 0, 0, 0][..], &[0x11, 0, 0, 0, 1]] {
            emit(&request(false, &[], &extended(info, 5, there)));
        }
    }
}
