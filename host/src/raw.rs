//! The calls as the archive has them, declared once, and the layout of their numbers (made from the C header).

#![allow(missing_docs)]

include!(concat!(env!("OUT_DIR"), "/layout.rs"));

/// A call's answer: document 01's number, the need or the reason, the bytes used.
#[repr(C)]
#[derive(Clone, Copy, Debug, PartialEq, Eq)]
pub struct Answer {
    pub number: u64,
    pub value: u64,
    pub used: u64,
}

/// The index call's answer: document 01's number, the need, the state, and how many entries the call wrote.
#[repr(C)]
#[derive(Clone, Copy, Debug, PartialEq, Eq)]
pub struct IndexAnswer {
    pub number: u64,
    pub need: u64,
    pub at: u64,
    pub used: u64,
    pub taken: u64,
}

mod archive {
    use super::{Answer, IndexAnswer};

    // The archive is x86-64 code, where C passes the place of a struct that is returned before the arguments. Compiled for another machine, which is for
    // measuring alone, it still takes that place first, so there it is passed by hand.
    macro_rules! calls {
        ($($name:ident($($arg:ident: $type:ty),*) -> $answer:ty;)*) => {
            #[cfg(target_arch = "x86_64")]
            extern "C" {
                $(pub fn $name($($arg: $type),*) -> $answer;)*
            }
            $(
                #[cfg(not(target_arch = "x86_64"))]
                pub unsafe fn $name($($arg: $type),*) -> $answer {
                    extern "C" {
                        fn $name(answer: *mut $answer, $($arg: $type),*) -> *mut $answer;
                    }
                    let mut answer = std::mem::MaybeUninit::uninit();
                    $name(answer.as_mut_ptr(), $($arg),*);
                    answer.assume_init()
                }
            )*
        };
    }

    calls! {
        dlt_message(s: *const u8, s_len: usize, f: *const u8, f_len: usize, storage: bool, out: *mut u64, out_len: usize) -> Answer;
        dlt_argument(s: *const u8, s_len: usize, at: usize, left: usize, big: bool, out: *mut u64, out_len: usize) -> Answer;
        dlt_raw_value(s: *const u8, s_len: usize, at: usize, left: usize, big: bool, out: *mut u64, out_len: usize) -> Answer;
        dlt_forward_to_next_storage_header(s: *const u8, s_len: usize, at: usize) -> Answer;
        dlt_consume_msg(s: *const u8, s_len: usize) -> Answer;
        dlt_construct_arguments(big: bool, words: *const u32, words_len: usize, data: *const u8, data_len: usize) -> Answer;
        dlt_signal(words: *const u32, words_len: usize, data: *const u8, data_len: usize, at: usize, word: usize, big: bool, out: *mut u64, out_len: usize) -> Answer;
        dlt_index(s: *const u8, s_len: usize, f: *const u8, f_len: usize, at: usize, used: usize, table: *mut u64, table_len: usize, n: usize) -> IndexAnswer;
    }
}

// Safety of each: the pointers and lengths are those of slices that live for the call, and the archive's code is proved to stay within them.

/// One message at the front of `s`, under the filter `f`; its numbers go into `out`.
pub fn message(s: &[u8], f: &[u8], storage: bool, out: &mut [u64]) -> Answer {
    unsafe { archive::dlt_message(s.as_ptr(), s.len(), f.as_ptr(), f.len(), storage, out.as_mut_ptr(), out.len()) }
}

/// The next argument of a list by its cursor; its numbers go into `out`.
pub fn argument(s: &[u8], at: usize, left: usize, big: bool, out: &mut [u64]) -> Answer {
    unsafe { archive::dlt_argument(s.as_ptr(), s.len(), at, left, big, out.as_mut_ptr(), out.len()) }
}

/// The next raw value of a network trace by its cursor; its numbers go into `out`.
pub fn raw_value(s: &[u8], at: usize, left: usize, big: bool, out: &mut [u64]) -> Answer {
    unsafe { archive::dlt_raw_value(s.as_ptr(), s.len(), at, left, big, out.as_mut_ptr(), out.len()) }
}

/// The first storage pattern from `at` on.
pub fn forward(s: &[u8], at: usize) -> Answer {
    unsafe { archive::dlt_forward_to_next_storage_header(s.as_ptr(), s.len(), at) }
}

/// Passes one message with its storage header.
pub fn consume(s: &[u8]) -> Answer {
    unsafe { archive::dlt_consume_msg(s.as_ptr(), s.len()) }
}

/// How many arguments there are for these words, and how many bytes they use.
pub fn construct(big: bool, words: &[u32], data: &[u8]) -> Answer {
    unsafe { archive::dlt_construct_arguments(big, words.as_ptr(), words.len(), data.as_ptr(), data.len()) }
}

/// The next signal by its cursor; its numbers go into `out`.
pub fn signal(words: &[u32], data: &[u8], at: usize, word: usize, big: bool, out: &mut [u64]) -> Answer {
    unsafe { archive::dlt_signal(words.as_ptr(), words.len(), data.as_ptr(), data.len(), at, word, big, out.as_mut_ptr(), out.len()) }
}

/// The index call over a flat table. It stops after `n` entries.
pub fn index(s: &[u8], f: &[u8], at: usize, used: usize, table: &mut [u64], n: usize) -> IndexAnswer {
    unsafe { archive::dlt_index(s.as_ptr(), s.len(), f.as_ptr(), f.len(), at, used, table.as_mut_ptr(), table.len(), n) }
}
