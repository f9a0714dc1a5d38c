//! between ROUNDS BEFORE.. AFTER..: two archives of the proved calls, each as shared objects that have its functions in several orders, timed in turn on
//! the same inputs in one process. Where code lies moves a time by a tenth and more, so a row's time is the median of the orders, and how far they are
//! apart is what a ratio is worth.
//! between --once ROW OBJECT runs one row once, for a tool that counts instructions; between --rows lists the rows. `bench/between` does all of it.

#[path = "../calls.rs"]
mod calls;
#[allow(dead_code)]
#[path = "../traces.rs"]
mod traces;

use calls::Calls;
use host::raw::{Answer, IndexAnswer};
use std::ffi::{c_char, c_int, c_void, CStr, CString};
use std::hint::black_box;
use std::mem::{transmute_copy, MaybeUninit};
use std::time::{Duration, Instant};
use traces::Ids;

const SIZE: usize = 16 << 20;

extern "C" {
    fn dlopen(name: *const c_char, flags: c_int) -> *mut c_void;
    fn dlsym(library: *mut c_void, name: *const c_char) -> *mut c_void;
    fn dlerror() -> *const c_char;
}

// The place of the answer comes first: so C passes it on x86-64, and so the archive takes it on every machine (host/src/raw.rs).
type Message = unsafe extern "C" fn(*mut Answer, *const u8, usize, *const u8, usize, bool, *mut u64, usize) -> *mut Answer;
type Next = unsafe extern "C" fn(*mut Answer, *const u8, usize, usize, usize, bool, *mut u64, usize) -> *mut Answer;
type Forward = unsafe extern "C" fn(*mut Answer, *const u8, usize, usize) -> *mut Answer;
type Consume = unsafe extern "C" fn(*mut Answer, *const u8, usize) -> *mut Answer;
type Index = unsafe extern "C" fn(*mut IndexAnswer, *const u8, usize, *const u8, usize, usize, usize, *mut u64, usize, usize) -> *mut IndexAnswer;

/// The calls of one archive.
struct Archive {
    message: Message,
    argument: Next,
    raw_value: Next,
    forward: Forward,
    consume: Consume,
    index: Index,
}

fn stop(why: &str) -> ! {
    eprintln!("between: {why}");
    std::process::exit(2)
}

impl Archive {
    fn load(path: &str) -> Archive {
        let name = CString::new(path).unwrap_or_else(|_| stop("a name with a zero byte"));
        // Safety: the file is an archive of ours, whose calls have the types above; 2 is RTLD_NOW, and without RTLD_GLOBAL each object keeps its symbols to itself.
        unsafe {
            let library = dlopen(name.as_ptr(), 2);
            if library.is_null() {
                stop(&CStr::from_ptr(dlerror()).to_string_lossy());
            }
            let call = |name: &CStr| {
                let place = dlsym(library, name.as_ptr());
                if place.is_null() {
                    stop(&format!("{path} has no {}", name.to_string_lossy()));
                }
                place
            };
            Archive {
                message: transmute_copy(&call(c"dlt_message")),
                argument: transmute_copy(&call(c"dlt_argument")),
                raw_value: transmute_copy(&call(c"dlt_raw_value")),
                forward: transmute_copy(&call(c"dlt_forward_to_next_storage_header")),
                consume: transmute_copy(&call(c"dlt_consume_msg")),
                index: transmute_copy(&call(c"dlt_index")),
            }
        }
    }

    fn next(call: Next, s: &[u8], at: usize, left: usize, big: bool, out: &mut [u64]) -> Answer {
        let mut answer = MaybeUninit::uninit();
        // Safety, here and below: the slices live for the call, and it writes the answer.
        unsafe {
            call(answer.as_mut_ptr(), s.as_ptr(), s.len(), at, left, big, out.as_mut_ptr(), out.len());
            answer.assume_init()
        }
    }
}

impl Calls for Archive {
    fn message(&self, s: &[u8], f: &[u8], out: &mut [u64]) -> Answer {
        let mut answer = MaybeUninit::uninit();
        unsafe {
            (self.message)(answer.as_mut_ptr(), s.as_ptr(), s.len(), f.as_ptr(), f.len(), true, out.as_mut_ptr(), out.len());
            answer.assume_init()
        }
    }

    fn argument(&self, s: &[u8], at: usize, left: usize, big: bool, out: &mut [u64]) -> Answer {
        Archive::next(self.argument, s, at, left, big, out)
    }

    fn raw_value(&self, s: &[u8], at: usize, left: usize, big: bool, out: &mut [u64]) -> Answer {
        Archive::next(self.raw_value, s, at, left, big, out)
    }

    fn forward(&self, s: &[u8]) -> Answer {
        let mut answer = MaybeUninit::uninit();
        unsafe {
            (self.forward)(answer.as_mut_ptr(), s.as_ptr(), s.len(), 0);
            answer.assume_init()
        }
    }

    fn consume(&self, s: &[u8]) -> Answer {
        let mut answer = MaybeUninit::uninit();
        unsafe {
            (self.consume)(answer.as_mut_ptr(), s.as_ptr(), s.len());
            answer.assume_init()
        }
    }

    fn index(&self, s: &[u8], f: &[u8], at: usize, used: usize, table: &mut [u64]) -> IndexAnswer {
        let mut answer = MaybeUninit::uninit();
        unsafe {
            (self.index)(answer.as_mut_ptr(), s.as_ptr(), s.len(), f.as_ptr(), f.len(), at, used, table.as_mut_ptr(), table.len(), host::NO_LIMIT);
            answer.assume_init()
        }
    }
}

enum Call {
    Messages,
    Arguments,
    Consumed,
    Indexed,
    Resumed,
}

enum Input {
    Mixed(Ids),
    Clean,
    Corpus,
    Random,
    Zeros,
    Hickups,
    Many,
    Long,
    Past,
    Overruns,
}

/// Which ids a filter has: how many to a set, and what the application ids begin with.
type Sets = Option<(u64, &'static str)>;

struct Row {
    name: &'static str,
    call: Call,
    input: Input,
    sets: Sets,
}

const fn row(name: &'static str, call: Call, input: Input, sets: Sets) -> Row {
    Row { name, call, input, sets }
}

const FOUR: Sets = Some((4, "APP"));

const ROWS: [Row; 26] = [
    row("dlt_message, and every argument by its cursor, mixed trace", Call::Arguments, Input::Mixed(Ids::Letters), None),
    row("the same, the corpus", Call::Arguments, Input::Corpus, None),
    row("the same, 255 arguments each", Call::Arguments, Input::Many, None),
    row("the same, strings of 65,503 bytes", Call::Arguments, Input::Long, None),
    row("dlt_message, mixed trace", Call::Messages, Input::Mixed(Ids::Letters), None),
    row("the same, filter of three sets of 4", Call::Messages, Input::Mixed(Ids::Letters), FOUR),
    row("the same, filter of three sets of 64", Call::Messages, Input::Mixed(Ids::Letters), Some((64, "APP"))),
    row("dlt_message, the corpus", Call::Messages, Input::Corpus, None),
    row("dlt_message, 255 arguments each", Call::Messages, Input::Many, None),
    row("dlt_message, strings of 65,503 bytes", Call::Messages, Input::Long, None),
    row("dlt_consume_msg", Call::Consumed, Input::Clean, None),
    row("index, mixed trace", Call::Indexed, Input::Mixed(Ids::Letters), None),
    row("index, in calls of 64 KB", Call::Resumed, Input::Mixed(Ids::Letters), None),
    row("index, filter of three sets of 4", Call::Indexed, Input::Mixed(Ids::Letters), FOUR),
    row("index, the same with other app ids", Call::Indexed, Input::Mixed(Ids::Letters), Some((4, "NON"))),
    row("dlt_message, ids of three letters and a zero byte", Call::Messages, Input::Mixed(Ids::Short), None),
    row("the same, filter of three sets of 4", Call::Messages, Input::Mixed(Ids::Short), FOUR),
    row("index, the same", Call::Indexed, Input::Mixed(Ids::Short), FOUR),
    row("dlt_message, ids with a letter above 7F", Call::Messages, Input::Mixed(Ids::Wide), None),
    row("the same, filter of three sets of 4", Call::Messages, Input::Mixed(Ids::Wide), FOUR),
    row("index, the same", Call::Indexed, Input::Mixed(Ids::Wide), FOUR),
    row("dlt_message, 20-byte hickups", Call::Messages, Input::Hickups, None),
    row("dlt_message, counted arguments far past the declared end", Call::Messages, Input::Past, None),
    row("dlt_message, random bytes", Call::Messages, Input::Random, None),
    row("dlt_message, zeros", Call::Messages, Input::Zeros, None),
    row("index, counted arguments far past the declared end", Call::Indexed, Input::Overruns, None),
];

impl Row {
    /// The input and the filter's bytes; nothing where there is no corpus.
    fn made(&self) -> Option<(Vec<u8>, Vec<u8>)> {
        let mut ids = Ids::Letters;
        let bytes = match self.input {
            Input::Mixed(of) => {
                ids = of;
                traces::mixed(SIZE, 7, true, of)
            }
            Input::Clean => traces::mixed(SIZE, 7, false, ids),
            Input::Corpus => traces::corpus(SIZE)?,
            Input::Random => traces::random(SIZE, 5),
            Input::Zeros => vec![0; SIZE],
            Input::Hickups => traces::hickups(SIZE / 4),
            Input::Many => traces::repeated(SIZE, &traces::many_arguments()),
            Input::Long => traces::repeated(SIZE, &traces::long_string()),
            Input::Past => traces::past_the_end(SIZE / 16),
            Input::Overruns => traces::overruns(SIZE),
        };
        Some((bytes, self.sets.map_or(Vec::new(), |(n, app)| traces::filter_bytes(&traces::filter_sets(n, app, ids)))))
    }

    /// Whether archives may count otherwise: one that knows no overrun reads on past the declared end, takes other entries and waits before the trace's end.
    fn counts_may_differ(&self) -> bool {
        matches!(self.input, Input::Overruns)
    }

    fn run(&self, archive: &Archive, bytes: &[u8], filter: &[u8], table: &mut [u64]) -> u64 {
        match self.call {
            Call::Messages => archive.messages(bytes, filter, false),
            Call::Arguments => archive.messages(bytes, filter, true),
            Call::Consumed => archive.consumed(bytes),
            Call::Indexed => archive.indexed(bytes, filter, bytes.len(), table),
            Call::Resumed => archive.indexed(bytes, filter, 1 << 16, table),
        }
    }
}

/// The least time of each object in milliseconds, all in turn, each of them first as often as the others; and what the archives count, which must be the
/// same where it may not differ.
fn in_turn(row: &Row, objects: &[Archive], rounds: usize, table: &mut [u64]) -> Option<(Vec<f64>, [u64; 2])> {
    let (bytes, filter) = row.made()?;
    let mut best = vec![Duration::MAX; objects.len()];
    let mut counted = [None; 2];
    for round in 0..rounds {
        for turn in 0..objects.len() {
            let which = (round + turn) % objects.len();
            let begun = Instant::now();
            let count = black_box(row.run(&objects[which], &bytes, &filter, table));
            best[which] = best[which].min(begun.elapsed());
            let archive = 2 * which / objects.len();
            assert_eq!(*counted[archive].get_or_insert(count), count, "an archive doesn't agree with itself");
        }
    }
    let counted = counted.map(Option::unwrap_or_default);
    assert!(counted[0] == counted[1] || row.counts_may_differ(), "the archives don't agree: {counted:?}");
    Some((best.iter().map(|time| time.as_secs_f64() * 1e3).collect(), counted))
}

/// Least, median and most.
fn spread(times: &mut [f64]) -> [f64; 3] {
    times.sort_by(f64::total_cmp);
    let n = times.len();
    [times[0], (times[(n - 1) / 2] + times[n / 2]) / 2.0, times[n - 1]]
}

fn compared(rounds: usize, objects: &[Archive], table: &mut [u64]) {
    let wanted = std::env::var("ROWS").unwrap_or_default();
    let number = |word: &str| word.parse().ok().filter(|&i| i < ROWS.len()).unwrap_or_else(|| stop(&format!("ROWS: no row {word}; there are 0 to {}", ROWS.len() - 1)));
    let wanted: Vec<usize> = wanted.split_whitespace().map(number).collect();
    println!("| Row | Before: median (least to most) | After | Median after to before | Most to least before |\n|---|---|---|---|---|");
    for (_, row) in ROWS.iter().enumerate().filter(|(i, _)| wanted.is_empty() || wanted.contains(i)) {
        let Some((mut times, [counted, now])) = in_turn(row, objects, rounds, table) else { continue };
        let (before, after) = times.split_at_mut(objects.len() / 2);
        let ([b0, b, b1], [a0, a, a1]) = (spread(before), spread(after));
        let counts = if counted == now { String::new() } else { format!(" ({counted} before, {now} after)") };
        println!("| {}{counts} | {b:.2} ms ({b0:.2} to {b1:.2}) | {a:.2} ms ({a0:.2} to {a1:.2}) | {:.3} | {:.3} |", row.name, a / b, b1 / b0);
    }
}

fn main() {
    let words: Vec<String> = std::env::args().skip(1).collect();
    let words: Vec<&str> = words.iter().map(String::as_str).collect();
    let mut table = vec![0; 4 * (SIZE / 20 + 1)];
    match &words[..] {
        ["--rows"] => ROWS.iter().enumerate().for_each(|(i, row)| println!("{i} {}", row.name)),
        ["--once", row, object] => {
            let row = row.parse().ok().and_then(|i: usize| ROWS.get(i)).unwrap_or_else(|| stop("no such row; --rows lists them"));
            let Some((bytes, filter)) = row.made() else { return };
            println!("{}", row.run(&Archive::load(object), &bytes, &filter, &mut table));
        }
        [rounds, objects @ ..] if !objects.is_empty() && objects.len() % 2 == 0 => {
            let rounds = rounds.parse().ok().filter(|&n| n > 0).unwrap_or_else(|| stop("ROUNDS is a number above 0"));
            let objects: Vec<Archive> = objects.iter().map(|object| Archive::load(object)).collect();
            compared(rounds, &objects, &mut table);
        }
        _ => stop("usage: bench/between BEFORE AFTER [ORDERS] [ROUNDS]"),
    }
}
