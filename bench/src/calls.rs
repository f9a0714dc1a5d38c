//! What is timed: loops over the calls of an archive, whether it is linked or was loaded.

use host::raw::{Answer, IndexAnswer};
use std::hint::black_box;

/// Room for the numbers of a message or an argument, of any interface.
const ROOM: usize = 64;

pub trait Calls {
    /// One message at the front of `s`, with its storage header.
    fn message(&self, s: &[u8], f: &[u8], out: &mut [u64]) -> Answer;
    /// The next argument of a list by its cursor.
    fn argument(&self, s: &[u8], at: usize, left: usize, big: bool, out: &mut [u64]) -> Answer;
    /// The next raw value of a network trace by its cursor.
    fn raw_value(&self, s: &[u8], at: usize, left: usize, big: bool, out: &mut [u64]) -> Answer;
    /// The first storage pattern.
    fn forward(&self, s: &[u8]) -> Answer;
    /// Passes one message.
    fn consume(&self, s: &[u8]) -> Answer;
    /// The index call, without a limit.
    fn index(&self, s: &[u8], f: &[u8], at: usize, used: usize, table: &mut [u64]) -> IndexAnswer;

    /// How many messages there are: goes on behind what was used; behind the pattern after a hickup.
    fn messages(&self, bytes: &[u8], filter: &[u8], with_arguments: bool) -> u64 {
        let (mut at, mut items) = (0, 0);
        let (mut out, mut argument) = ([0; ROOM], [0; ROOM]);
        while at < bytes.len() {
            let answer = self.message(&bytes[at..], filter, &mut out);
            match answer.number {
                host::raw::DONE => {
                    items += 1;
                    black_box(&out);
                    if with_arguments && out[host::raw::MESSAGE_FILTERED] == 0 {
                        self.arguments(&bytes[at..], &out, &mut argument);
                    }
                    at += answer.used as usize;
                }
                host::raw::HICKUP | host::raw::UNRECOVERABLE => at += self.forward(&bytes[at..]).used as usize + 4,
                _ => break,
            }
        }
        items
    }

    /// Every argument of a message, with all its numbers in `out`; of a network trace every raw value.
    fn arguments(&self, bytes: &[u8], message: &[u64], out: &mut [u64; ROOM]) {
        let raw = match message[host::raw::MESSAGE_PAYLOAD] {
            0 => false,
            3 => true,
            _ => return,
        };
        let (mut at, mut left) = (message[host::raw::MESSAGE_START] as usize, message[host::raw::MESSAGE_LENGTH] as usize);
        let big = message[host::raw::MESSAGE_LIST_BIG] == 1;
        while left > 0 {
            let answer = if raw { self.raw_value(bytes, at, left, big, out) } else { self.argument(bytes, at, left, big, out) };
            if answer.number != host::raw::DONE || answer.value == 0 {
                return;
            }
            black_box(&*out);
            // both calls write where the next argument stands and how many are left to the first two places
            (at, left) = (out[host::raw::ARGUMENT_NEXT] as usize, out[host::raw::ARGUMENT_LEFT] as usize);
        }
    }

    /// How many messages there are, each passed.
    fn consumed(&self, bytes: &[u8]) -> u64 {
        let (mut at, mut count) = (0, 0);
        while at < bytes.len() {
            let answer = self.consume(&bytes[at..]);
            if answer.number != host::raw::DONE {
                break;
            }
            count += 1;
            at += answer.used as usize;
        }
        count
    }

    /// How many entries the index has, from a fresh state, in calls that are each given the bytes from the resume position on, `more` of them new.
    fn indexed(&self, bytes: &[u8], filter: &[u8], more: usize, table: &mut [u64]) -> u64 {
        let (mut at, mut used, mut end) = (0, 0, 0);
        while end < bytes.len() {
            end = bytes.len().min(end + more);
            let answer = self.index(&bytes[at..end], filter, at, used, table);
            (at, used) = (answer.at as usize, answer.used as usize);
        }
        used as u64
    }
}
