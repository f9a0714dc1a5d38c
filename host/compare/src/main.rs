//! compare KIND COUNT SEED [THREADS]: makes requests by seed as `oracle/compare` does, asks the crate and the archive in this process, and counts the
//! answers that differ. KIND is msg, consume, fwd, args, index, limited (index with a limit), overrun (index over messages whose arguments run past their
//! declared end), net (msg of network traces), why-msg, why-args (msg and args with why each text ended, over all numbers of a message and an argument) or
//! all; or ids, which all leaves out: msg with 1,901,020 identifiers of every make, and then random ones; or why-ids, the same with why. The archive has no
//! call for conf: `oracle/compare conf` asks replay.
//! With threads, each has a seed of its own: SEED, SEED + 1, ..

use std::panic::catch_unwind;
use std::time::Instant;

const KINDS: [&str; 10] = ["msg", "consume", "fwd", "args", "index", "limited", "overrun", "net", "why-msg", "why-args"];

struct Count {
    asked: u64,
    differ: u64,
}

fn compare(kind: &str, count: u64, seed: u64) -> Result<Count, String> {
    let mut all = Count { asked: 0, differ: 0 };
    for kind in oracle::requests::kinds(kind)? {
        kind.make(Some(count), seed, &mut |line| {
            let ours = catch_unwind(|| host::text::answer(line)).unwrap_or(Some("panic".to_string()));
            let Some(ours) = ours else { return };
            let theirs = oracle::answer::answer(line.as_bytes());
            all.asked += 1;
            if ours != theirs {
                all.differ += 1;
                if all.differ == 1 {
                    println!("request: {line}\ncrate:   {theirs}\nours:    {ours}");
                }
            }
        });
    }
    Ok(all)
}

fn run() -> Result<bool, String> {
    let words: Vec<String> = std::env::args().skip(1).collect();
    let [kind, count, seed, rest @ ..] = &words[..] else { return Err("expected KIND COUNT SEED [THREADS]".to_string()) };
    let kinds: Vec<&str> = if kind == "all" { KINDS.to_vec() } else { vec![kind] };
    let number = |word: &str| word.parse::<u64>().map_err(|_| format!("{word} is no number"));
    let (count, seed) = (number(count)?, number(seed)?);
    let threads = rest.first().map_or(Ok(1), |word| number(word))?;
    oracle::answer::be_silent_in_panics();
    let begun = Instant::now();
    let (mut asked, mut differ) = (0, 0);
    for kind in kinds {
        let parts: Vec<Result<Count, String>> = std::thread::scope(|scope| {
            let started: Vec<_> = (0..threads).map(|i| scope.spawn(move || compare(kind, count / threads, seed + i))).collect();
            started.into_iter().map(|part| part.join().unwrap_or(Err("a panic".to_string()))).collect()
        });
        let mut sum = Count { asked: 0, differ: 0 };
        for part in parts {
            let part = part?;
            sum.asked += part.asked;
            sum.differ += part.differ;
        }
        if sum.asked == 0 {
            return Err(format!("{kind}: nothing was compared; the host answers {}, ids, why-ids", KINDS.join(", ")));
        }
        println!("{kind}: {} inputs, {} differ", sum.asked, sum.differ);
        asked += sum.asked;
        differ += sum.differ;
    }
    let seconds = begun.elapsed().as_secs_f64();
    println!("{asked} inputs, {differ} differ, {:.0} inputs per second", asked as f64 / seconds);
    Ok(differ == 0)
}

fn main() {
    match run() {
        Ok(true) => (),
        Ok(false) => std::process::exit(1),
        Err(problem) => {
            eprintln!("compare: {problem}");
            std::process::exit(2);
        }
    }
}
