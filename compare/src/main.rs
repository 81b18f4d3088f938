//! compare SEED GROUND STEPS SEARCHES TEXTS: the archive and the Rust on the same inputs, in one process.
//!
//! Prints a count for each kind and the differences, the first few of them whole. Exits with 1 if there is one, and with 2
//! where the words are not its own.
#[cfg(feature = "bench")]
mod bench;
mod ground;
#[cfg(feature = "bench")]
mod inner;
mod lent;
#[cfg(feature = "searches")]
mod searches;
mod tables;
mod tally;
mod walks;

use tally::Tally;

const WORDS: [&str; 5] = ["SEED", "GROUND", "STEPS", "SEARCHES", "TEXTS"];

/// What is wrong with the words, on standard error; the exit status is 2.
fn stop(wrong: &str) -> ! {
    eprintln!("compare: {wrong}");
    std::process::exit(2);
}

/// The number that a word stands for.
fn number(what: &str, word: &str) -> u64 {
    let most = u64::MAX;
    match word.parse() {
        Ok(number) => number,
        Err(_) => stop(&format!(
            "{what} is to be a whole number from 0 to {most}, and is {word:?}"
        )),
    }
}

/// The times of both, where the program was built for them and is asked for them.
#[cfg(feature = "bench")]
fn timed(words: &[&str]) -> bool {
    match words {
        ["bench"] => bench::run(),
        ["once", kind, diagonal, who] => bench::once(
            number("the kind of map", kind) as usize,
            *diagonal == "1",
            number("who searches", who) as usize,
        ),
        _ => return false,
    }
    true
}
#[cfg(not(feature = "bench"))]
fn timed(words: &[&str]) -> bool {
    if matches!(words.first(), Some(&("bench" | "once"))) {
        stop("this program was built without the times; compare/run bench builds it with them");
    }
    false
}

fn main() {
    let words: Vec<String> = std::env::args_os()
        .skip(1)
        .map(|word| word.to_string_lossy().into_owned())
        .collect();
    let words: Vec<&str> = words.iter().map(|word| word.as_str()).collect();
    if timed(&words) {
        return;
    }
    if words.len() != WORDS.len() {
        stop(&format!(
            "{} words came, and five numbers are wanted: {}",
            words.len(),
            WORDS.join(" ")
        ));
    }
    let [seed, ground, steps, searches, texts] =
        [0, 1, 2, 3, 4].map(|i| number(WORDS[i], words[i]));
    if !compare(seed, ground, steps, searches, texts) {
        std::process::exit(1);
    }
}

/// What compares so many inputs of one kind.
type Kind = fn(&mut Tally, &mut tools::Rng);

/// Whether no answer differed.
fn compare(seed: u64, ground: u64, steps: u64, searches: u64, texts: u64) -> bool {
    let mut r = tools::Rng(seed);
    let kinds: Vec<(&str, Kind, u64)> = vec![
        ("masks", ground::masks, 256),
        (
            "near directions",
            ground::near_directions,
            ground::NEAR_PAIRS,
        ),
        ("directions", ground::directions, ground),
        ("distances", ground::distances, ground),
        ("tables", tables::steps, steps),
        ("refused tables", tables::refusals, steps / 10),
        #[cfg(feature = "searches")]
        ("searches", searches::searches, searches),
        ("paths", walks::paths, steps / 10),
        ("route checks", walks::checks, steps / 10),
        ("cells", walks::cells, steps / 10),
        ("texts", walks::texts, texts),
    ];
    #[cfg(not(feature = "searches"))]
    let _ = searches;
    let mut differences = 0;
    for (name, run, count) in kinds {
        let mut t = Tally::new(name, count);
        run(&mut t, &mut r);
        t.tell();
        differences += t.differences;
    }
    println!("seed {seed}, differences={differences}");
    differences == 0
}
