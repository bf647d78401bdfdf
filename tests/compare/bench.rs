//! Puts packages before the library and the reference, and compares.

use std::collections::BTreeMap;
use std::fmt;
use std::path::PathBuf;
use std::process::exit;
use std::ptr;
use std::sync::atomic::{AtomicPtr, Ordering};

use crate::fence::Fence;
use crate::quoted::quoted;

extern "C" {
    fn station_find(package: *const u8, len: usize, structure: u32, tag: u32, ty: u32) -> u64;
    fn station_find_element(
        package: *const u8,
        len: usize,
        structure: u32,
        tag: u32,
        ty: u32,
        element: u32,
    ) -> u64;

    // libc, on Linux.
    fn signal(number: i32, handler: extern "C" fn(i32)) -> usize;
    fn alarm(seconds: u32) -> u32;
}

const SIGILL: i32 = 4;
const SIGABRT: i32 = 6;
const SIGBUS: i32 = 7;
const SIGSEGV: i32 = 11;
const SIGALRM: i32 = 14;

/// How long a family may take, in seconds.
const LIMIT: u32 = 300;

/// A look-up to ask for; `element` is `None` for a whole entry.
#[derive(Clone, Copy, Debug)]
pub struct Question {
    pub structure: u32,
    pub tag: u32,
    pub ty: u32,
    pub element: Option<u32>,
}

impl Question {
    fn library(self, package: *const u8, len: usize) -> Answer {
        let Question {
            structure, tag, ty, ..
        } = self;
        Answer(match self.element {
            None => unsafe { station_find(package, len, structure, tag, ty) },
            Some(n) => unsafe { station_find_element(package, len, structure, tag, ty, n) },
        })
    }

    fn numbers(self) -> Vec<u64> {
        let numbers = [self.structure, self.tag, self.ty];
        numbers
            .into_iter()
            .chain(self.element)
            .map(u64::from)
            .collect()
    }

    fn reference(self, package: &[u8]) -> Answer {
        let Question {
            structure, tag, ty, ..
        } = self;
        Answer(reference::answer(&match self.element {
            None => reference::find(package, structure, tag, ty),
            Some(n) => reference::find_element(package, structure, tag, ty, n),
        }))
    }
}

/// number × 2^32 + place
#[derive(Clone, Copy, PartialEq, Eq)]
pub struct Answer(pub u64);

impl Answer {
    pub fn new(number: u32, place: usize) -> Answer {
        Answer((u64::from(number) << 32) + place as u64)
    }

    pub fn number(self) -> u32 {
        (self.0 >> 32) as u32
    }

    pub fn place(self) -> u32 {
        self.0 as u32
    }
}

impl fmt::Display for Answer {
    fn fmt(&self, f: &mut fmt::Formatter) -> fmt::Result {
        write!(f, "{} at {}", self.number(), self.place())
    }
}

/// What is asked at the moment, for the report of a difference or a fault.
struct Current {
    family: &'static str,
    case: usize,
    note: &'static str,
    package: Vec<u8>,
    /// This program's command that asks again, and the numbers behind the package.
    again: Option<(&'static str, Vec<u64>)>,
    /// The texts behind the numbers.
    texts: Vec<Vec<u8>>,
    report: PathBuf,
}

pub struct Bench {
    fence: Fence,
    pub lent: *const u8,
    current: Box<Current>,
    only: Option<String>,
    /// Whether the next packages and lists are cases of their own.
    pub counting: bool,
    pub packages: usize,
    pub comparisons: usize,
    /// How often each number was the answer.
    pub numbers: BTreeMap<u32, usize>,
    /// The same for writings alone.
    pub writings: BTreeMap<u32, usize>,
    /// The same for digests alone.
    pub digests: BTreeMap<u32, usize>,
    /// How often a version was older, the same, newer.
    pub versions: [usize; 3],
    /// How often each number was the answer on a requirement, success apart by its place.
    pub requirements: BTreeMap<(u32, u32), usize>,
    /// How often 32 was the answer for a reason, where the reason is known.
    pub reasons: BTreeMap<&'static str, usize>,
}

/// The bench's `current`, for the handler of signals.
static CURRENT: AtomicPtr<Current> = AtomicPtr::new(ptr::null_mut());

extern "C" fn on_signal(number: i32) {
    let current = unsafe { &*CURRENT.load(Ordering::SeqCst) };
    let what = match number {
        SIGALRM => "no end".to_string(),
        _ => format!("a fault (signal {number})"),
    };
    fail(current, &format!("library: {what}"));
}

/// Reports what is asked now, and ends the program.
fn fail(current: &Current, difference: &str) -> ! {
    let Current {
        family, case, note, ..
    } = current;
    eprintln!("compare: DIFFERENCE in \"{family}\", package {case} ({note})");
    eprintln!("{difference}");
    if let Some((command, numbers)) = &current.again {
        let report = current.report.display();
        let numbers = numbers.iter().map(u64::to_string);
        let texts = current
            .texts
            .iter()
            .map(|text| format!("\"{}\"", quoted(text)));
        let words: Vec<String> = numbers.chain(texts).collect();
        match std::fs::write(&current.report, &current.package) {
            Ok(()) => eprintln!("again: compare {command} {report} {}", words.join(" ")),
            Err(error) => eprintln!("{report}: {error}"),
        }
    }
    exit(1)
}

impl Bench {
    /// `report` is where a package that makes a difference is written; `only` is the
    /// one family to try.
    pub fn new(report: PathBuf, only: Option<String>) -> Bench {
        let mut bench = Bench {
            fence: Fence::new(),
            lent: ptr::null(),
            current: Box::new(Current {
                family: "",
                case: 0,
                note: "no note",
                package: Vec::new(),
                again: None,
                texts: Vec::new(),
                report,
            }),
            only,
            counting: true,
            packages: 0,
            comparisons: 0,
            numbers: BTreeMap::new(),
            writings: BTreeMap::new(),
            digests: BTreeMap::new(),
            versions: [0; 3],
            requirements: BTreeMap::new(),
            reasons: BTreeMap::new(),
        };
        CURRENT.store(&mut *bench.current, Ordering::SeqCst);
        for number in [SIGILL, SIGABRT, SIGBUS, SIGSEGV, SIGALRM] {
            unsafe { signal(number, on_signal) };
        }
        bench.limit(LIMIT);
        bench
    }

    /// How long the library may take from now on, in seconds.
    pub fn limit(&self, seconds: u32) {
        unsafe { alarm(seconds) };
    }

    /// Starts a family of cases, if it is one to try.
    pub fn begins(&mut self, family: &'static str) -> bool {
        self.current.family = family;
        self.current.case = 0;
        self.limit(LIMIT);
        self.only.as_ref().map_or(true, |only| only == family)
    }

    /// Whether every family is tried.
    pub fn all_families(&self) -> bool {
        self.only.is_none()
    }

    /// The package that the next questions are about.
    pub fn package(&mut self, bytes: &[u8]) {
        self.case(bytes);
        self.lent = self.fence.lend(bytes);
    }

    /// What the next questions are about, for the report.
    pub fn case(&mut self, bytes: &[u8]) {
        self.packages += usize::from(self.counting);
        self.current.case += usize::from(self.counting);
        self.current.note = "no note";
        self.current.package.clear();
        self.current.package.extend_from_slice(bytes);
        self.current.again = None;
    }

    /// The package that was lent.
    pub fn bytes(&self) -> &[u8] {
        &self.current.package
    }

    /// A word on the package, for the report.
    pub fn note(&mut self, note: &'static str) {
        self.current.note = note;
    }

    /// Library and reference must agree; so must what is known by construction.
    pub fn ask(&mut self, question: Question, known: Option<Answer>) -> Answer {
        self.asks("ask", question.numbers());
        let package = self.bytes();
        let reference = question.reference(package);
        let library = question.library(self.lent, package.len());
        if library != reference || known.is_some_and(|known| known != reference) {
            let known = known.map_or(String::new(), |known| format!(", known {known}"));
            self.fail(&format!("library {library}, reference {reference}{known}"));
        }
        self.agree(reference);
        library
    }

    /// What is asked next, for the report.
    pub fn asks(&mut self, command: &'static str, numbers: Vec<u64>) {
        self.current.again = Some((command, numbers));
        self.current.texts.clear();
    }

    /// The same where texts are asked with.
    pub fn asks_with(&mut self, command: &'static str, texts: [&[u8]; 2]) {
        self.current.again = Some((command, Vec::new()));
        self.current.texts.resize(texts.len(), Vec::new());
        for (kept, text) in self.current.texts.iter_mut().zip(texts) {
            kept.clear();
            kept.extend_from_slice(text);
        }
    }

    /// One more answer that agrees.
    pub fn agree(&mut self, answer: Answer) {
        self.comparisons += 1;
        *self.numbers.entry(answer.number()).or_default() += 1;
    }

    /// One more writing that agrees.
    pub fn agree_writing(&mut self, answer: Answer) {
        self.agree(answer);
        *self.writings.entry(answer.number()).or_default() += 1;
    }

    /// One more digest that agrees.
    pub fn agree_digest(&mut self, answer: Answer) {
        self.agree(answer);
        *self.digests.entry(answer.number()).or_default() += 1;
    }

    /// One more answer on a requirement that agrees.
    pub fn agree_requirement(&mut self, answer: Answer) {
        self.agree(answer);
        let place = if answer.number() == 0 {
            answer.place()
        } else {
            0
        };
        *self
            .requirements
            .entry((answer.number(), place))
            .or_default() += 1;
    }

    /// How often each number refused a requirement.
    pub fn refused_requirements(&self) -> BTreeMap<u32, usize> {
        let refused = self
            .requirements
            .iter()
            .filter(|((number, _), _)| *number != 0);
        refused
            .map(|(&(number, _), &count)| (number, count))
            .collect()
    }

    /// One more comparison of versions that agrees.
    pub fn agree_version(&mut self, answer: u32) {
        self.comparisons += 1;
        self.versions[answer as usize] += 1;
    }

    /// One more refusal for this reason.
    pub fn because(&mut self, reason: &'static str) {
        *self.reasons.entry(reason).or_default() += 1;
    }

    pub fn fail(&self, difference: &str) -> ! {
        fail(&self.current, difference)
    }

    /// Asks for a whole entry and for one element; gives the answer on the element.
    pub fn ask_both(&mut self, question: Question, known: Option<Answer>) -> Answer {
        let whole = Question {
            element: None,
            ..question
        };
        self.ask(whole, known);
        self.ask(question, known)
    }
}

/// Shows both answers to one question, to look into a difference.
pub fn show(package: &[u8], question: Question) {
    let lent = Fence::new().lend(package);
    println!("{question:?}");
    println!("reference {}", question.reference(package));
    println!("library   {}", question.library(lent, package.len()));
}
