//! Recordings cut at every byte, asked of the index.

use crate::judge::{heads, STORAGE_HEADER};
use host::{End, Entry, State, NO_LIMIT};
use std::fs;
use std::path::{Path, PathBuf};

/// A recording is cut at every byte of so many.
const MOST: usize = 200 * 1024;

/// Waits for the declared length's shortfall.
#[derive(Default)]
struct Waits {
    all: u64,
    followed: u64,
    taken: u64,
}

#[derive(Default)]
struct Count {
    cuts: u64,
    headers: u64,
    plain: Waits,
    verbose: Waits,
    early: u64,
    fail: u64,
    first: Option<String>,
}

/// The recordings below a folder, sorted.
fn recordings_below(dir: &Path) -> Result<Vec<PathBuf>, String> {
    let problem = |e: std::io::Error| format!("{}: {e}", dir.display());
    let mut found = Vec::new();
    for place in fs::read_dir(dir).map_err(problem)? {
        let path = place.map_err(problem)?.path();
        if path.is_dir() {
            found.extend(recordings_below(&path)?);
        } else if path.extension().is_some_and(|end| end == "dlt") {
            found.push(path);
        }
    }
    found.sort();
    Ok(found)
}

/// How many entries the index takes from a state on, of the first `end` bytes, if it may take one.
fn one_more(bytes: &[u8], from: State, end: usize) -> usize {
    let state = State { at: from.at, used: 0 };
    host::index(&bytes[from.at..end], &[], state, &mut [Entry::default()], 1).map_or(0, |got| got.taken)
}

/// The index waits here, over the first `end` bytes, with a need. Err: why this can't be.
fn wait(bytes: &[u8], state: State, end: usize, need: usize, count: &mut Count) -> Result<(), &'static str> {
    let pattern = host::forward_to_next_storage_header(&bytes[..end], state.at);
    let standard = pattern.map(|place| place + STORAGE_HEADER);
    let Some((heads, standard)) = standard.and_then(|place| Some((heads(&bytes[..end], place)?, place))) else {
        count.headers += 1;
        return Ok(());
    };
    let shortfall = (standard + heads.declared).saturating_sub(end);
    if shortfall == 0 {
        return Err("a message waits with all its declared bytes");
    }
    let waits = if heads.verbose { &mut count.verbose } else { &mut count.plain };
    waits.all += 1;
    if need != shortfall {
        return Err("the need isn't the declared length's shortfall");
    }
    if end + need > bytes.len() {
        return Ok(());
    }
    waits.followed += 1;
    let (early, taken) = (one_more(bytes, state, end + need - 1), one_more(bytes, state, end + need));
    waits.taken += taken as u64;
    count.early += early as u64;
    match (early, taken) {
        (0, 0) => Err("no entry is taken with all bytes of the need"),
        (0, _) => Ok(()),
        _ => Err("an entry is taken with one byte fewer than the need"),
    }
}

/// Each call goes on from the state that the call before it left, with one byte more.
fn cut_everywhere(name: &str, bytes: &[u8], count: &mut Count) -> Result<(), String> {
    let last = bytes.len().min(MOST);
    let mut table = vec![Entry::default(); last / 4 + 1];
    let mut state = State::default();
    for end in 0..=last {
        let got = host::index(&bytes[state.at..end], &[], state, &mut table, NO_LIMIT).map_err(|no| format!("{name}: {no:?}"))?;
        state = got.state;
        count.cuts += 1;
        let judged = match got.end {
            End::Waits(need) => wait(bytes, state, end, need as usize, count),
            _ => Err("the index doesn't wait at the end of the bytes"),
        };
        if let Err(why) = judged {
            count.fail += 1;
            count.first.get_or_insert_with(|| format!("fails:   {why}\n{name}: its first {end} bytes: {:?} {:?}", state, got.end));
        }
    }
    Ok(())
}

fn print(files: usize, count: &Count) {
    let (plain, verbose) = (&count.plain, &count.verbose);
    println!(
        "waits: {} before the headers are whole, {} for the declared shortfall",
        count.headers,
        plain.all + verbose.all
    );
    println!(
        "verbose: {} waits for the shortfall, {} with so many bytes to come, of which {} take an entry with them",
        verbose.all, verbose.followed, verbose.taken
    );
    println!(
        "{files} recordings cut at {} places: {} waits for the shortfall of a message that isn't verbose, {} with so many bytes to come, of which {} take an \
         entry with them; {} take one with one byte fewer; {} fail",
        count.cuts, plain.all, plain.followed, plain.taken, count.early, count.fail
    );
}

pub fn recordings(dir: &Path) -> Result<bool, String> {
    let paths = recordings_below(dir)?;
    if paths.is_empty() {
        return Err(format!("{}: no recording (*.dlt) below it", dir.display()));
    }
    let mut count = Count::default();
    for path in &paths {
        let name = path.strip_prefix(dir).unwrap_or(path).display().to_string();
        let bytes = fs::read(path).map_err(|e| format!("{}: {e}", path.display()))?;
        if bytes.len() > MOST {
            println!("{name}: of its {} bytes cut at every one of the first {MOST}", bytes.len());
        }
        cut_everywhere(&name, &bytes, &mut count)?;
    }
    if let Some(first) = &count.first {
        println!("{first}");
    }
    print(paths.len(), &count);
    Ok(count.fail == 0)
}
