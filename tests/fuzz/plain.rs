//! A plain loop of changes: the same inputs for the same seed. Inputs that get a
//! new sort of answer are kept and changed further.
//!
//!     plain CORPUS REPORT-FILE EXECUTIONS [SEED]
//!     plain CORPUS REPORT-FILE MINUTESm [SEED]
//!
//! First each package of the corpus must get the answers that CORPUS.txt says.
//! It fails if a number that can be the answer to a changed package never was.

use std::fs;
use std::path::{Path, PathBuf};
use std::time::{Duration, Instant};

use fuzz::change::{change, cross};
use fuzz::random::Random;
use fuzz::target::{Target, ASKED, SORTS};

const MOST_BYTES: usize = 8192;

/// Numbers that can be the answer, for each of `ASKED`.
fn possible() -> [Vec<usize>; 9] {
    let but = |most: usize, not: &[usize]| (0..=most).filter(|n| !not.contains(n)).collect();
    [
        but(28, &[1, 23, 25, 26]),
        but(28, &[1, 25, 26]),
        but(28, &[1, 25, 26]),
        vec![1],
        (0..=28)
            .filter(|n| !(14..=24).contains(n) && ![1, 27].contains(n))
            .collect(),
        vec![0, 32, 33, 34],
        vec![0, 34],
        (0..=28)
            .filter(|n| !(14..=24).contains(n) && ![26, 27].contains(n))
            .collect(),
        vec![0, 1, 2],
    ]
}

/// When the loop ends.
enum End {
    Executions(usize),
    At(Instant),
}

fn main() {
    let words: Vec<String> = std::env::args().skip(1).collect();
    let (corpus, report, end, seed) = match &words[..] {
        [corpus, report, end] => (corpus, report, end, 1),
        [corpus, report, end, seed] => (corpus, report, end, seed.parse().expect("a seed")),
        _ => panic!("plain CORPUS REPORT-FILE EXECUTIONS|MINUTESm [SEED]"),
    };
    let begun = Instant::now();
    let end = match end.strip_suffix('m') {
        Some(minutes) => {
            let minutes: f64 = minutes.parse().expect("minutes");
            End::At(begun + Duration::from_secs_f64(60.0 * minutes))
        }
        None => End::Executions(end.parse().expect("a number of executions")),
    };
    let mut target = Target::new(PathBuf::from(report), format!("fuzz, seed {seed}"));
    let mut kept = corpus_right(&mut target, corpus);
    let seeds = kept.len();
    target.forget();

    let mut random = Random::new(seed);
    let mut seen = vec![false; SORTS];
    // Those of `kept` that pass checks 2 to 13 and 28, and those that are accepted.
    let mut sound: Vec<usize> = (0..seeds).collect();
    let mut accepted = sound.clone();
    let mut executions = 0;
    while match end {
        End::Executions(limit) => executions < limit,
        End::At(time) => Instant::now() < time,
    } {
        let at = match random.below(8) {
            0 => random.below(kept.len()),
            1..=3 => random.pick(&sound),
            _ => random.pick(&accepted),
        };
        let mut input = kept[at].clone();
        if random.one_in(8) {
            let other = random.below(kept.len());
            cross(&mut input, &kept[other], &mut random, MOST_BYTES);
        } else {
            change(&mut input, &mut random, MOST_BYTES);
        }
        let answers = target.run(&input);
        executions += 1;
        let mut new = false;
        for &sort in &target.sorts {
            new |= !std::mem::replace(&mut seen[sort], true);
        }
        if new {
            let numbers = answers.map(|answer| answer.number());
            let number = numbers.into_iter().min().expect("an edition");
            if number == 0 {
                accepted.push(kept.len());
            } else if number > 13 && number != 28 {
                sound.push(kept.len());
            }
            kept.push(input);
        }
    }

    let seconds = begun.elapsed().as_secs_f64();
    println!(
        "fuzz: {executions} executions (seed {seed}) and {seeds} packages of the corpus, \
         {} answers agree ({seconds:.1} s)",
        target.comparisons()
    );
    let sorts = seen.iter().filter(|&&seen| seen).count();
    println!("fuzz: {sorts} sorts of answer, {} inputs kept", kept.len());
    print!("{}", target.summary());
    for ((who, numbers), possible) in ASKED.iter().zip(target.numbers).zip(possible()) {
        let missing = possible.iter().find(|&&number| numbers[number] == 0);
        assert!(
            missing.is_none(),
            "{who}: no input gave the number {missing:?}"
        );
    }
}

/// Runs the corpus: the answers at each edition must be those of its list.
fn corpus_right(target: &mut Target, corpus: &str) -> Vec<Vec<u8>> {
    let list = fs::read_to_string(format!("{corpus}.txt")).expect("the corpus's list");
    let mut inputs = Vec::new();
    for line in list.lines().filter(|line| !line.starts_with('#')) {
        let words: Vec<&str> = line.split_whitespace().collect();
        let [name, one, two, three] = words[..] else {
            panic!("{corpus}.txt: {line}");
        };
        let input = fs::read(Path::new(corpus).join(name)).expect(name);
        let answers = target.run(&input).map(|answer| answer.to_string());
        let known = [one, two, three].map(|word| word.replace('@', " at "));
        assert!(answers == known, "{name}: {answers:?}, not {known:?}");
        inputs.push(input);
    }
    let files = fs::read_dir(corpus).expect(corpus).count();
    assert!(
        files == inputs.len(),
        "{corpus} has other files than its list"
    );
    inputs
}
