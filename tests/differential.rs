//! The three C functions of the archive beside those of the peer (tests/peer), which shares nothing with them, on many inputs: `differential IMAGE [ASKER..]`.
//!
//! First come the edges, then numbers from a fixed seed. Each difference is printed with its input. The last line is 'N passed, M failed', and one case that was never met is a
//! failure too.
//!
//! On x86-64 the archive is linked. Elsewhere, built with `--cfg piped`, the words after IMAGE are the command of tests/asker.c, which is asked over pipes. The peer is always linked.
#![allow(unknown_lints, unexpected_cfgs)]

use std::collections::{BTreeMap, BTreeSet};
use std::fmt;

const IMAGE_LENGTH: usize = 1126;

/// One call of one of the three functions.
pub enum Question {
    Image(Vec<u8>),
    Calendar(u32),
    Age([u32; 5]),
}

impl fmt::Display for Question {
    fn fmt(&self, f: &mut fmt::Formatter<'_>) -> fmt::Result {
        match self {
            Question::Image(bytes) => {
                write!(f, "image of {} bytes ", bytes.len())?;
                bytes.iter().try_for_each(|b| write!(f, "{:02x}", b))
            }
            Question::Calendar(seconds) => write!(f, "second {}", seconds),
            Question::Age([limit, read, stamp, status, clock]) => {
                write!(f, "limit {}, read {}, stamp {}, STATUS {}, clock {}", limit, read, stamp, status, clock)
            }
        }
    }
}

/// Every offset at which an entry begins, with its size: period, inputs, sums, coefficients, slots, limits, windows, weekly references, seasons, holidays, tariff rules, bill registers.
fn entries() -> Vec<(usize, usize)> {
    let sections = [(1, 1), (16, 7), (8, 2), (32, 1), (16, 2), (32, 2), (32 * 4, 4), (16 * 8, 1), (8, 4), (32, 4), (16, 2), (16, 2)];
    let mut at = 5;
    let mut entries = Vec::new();
    for (count, size) in sections {
        for _ in 0..count {
            entries.push((at, size));
            at += size;
        }
    }
    assert_eq!(at, IMAGE_LENGTH);
    entries
}

/// The peer, linked.
mod peer {
    use super::Question;

    extern "C" {
        fn peer_image_check(image: *const u8, length: usize) -> u32;
        fn peer_calendar(seconds: u32) -> u64;
        fn peer_age_class(limit: u32, read: u32, stamp: u32, status: u32, clock: u32) -> u32;
    }

    pub fn answer(question: &Question) -> u64 {
        // A slice's pointer is never null, and its bytes are as many as its length.
        unsafe {
            match question {
                Question::Image(bytes) => u64::from(peer_image_check(bytes.as_ptr(), bytes.len())),
                Question::Calendar(seconds) => peer_calendar(*seconds),
                Question::Age([limit, read, stamp, status, clock]) => u64::from(peer_age_class(*limit, *read, *stamp, *status, *clock)),
            }
        }
    }
}

/// The archive, linked.
#[cfg(not(piped))]
mod archive {
    use super::Question;

    extern "C" {
        fn recorder_image_check(image: *const u8, length: usize) -> u32;
        fn recorder_calendar(seconds: u32) -> u64;
        fn recorder_age_class(limit: u32, read: u32, stamp: u32, status: u32, clock: u32) -> u32;
    }

    pub struct Archive;

    impl Archive {
        pub fn start(_command: &[String]) -> Archive {
            Archive
        }

        pub fn answers(&mut self, questions: &[Question]) -> Vec<u64> {
            questions.iter().map(answer).collect()
        }
    }

    fn answer(question: &Question) -> u64 {
        // A slice's pointer is never null, and its bytes are as many as its length.
        unsafe {
            match question {
                Question::Image(bytes) => u64::from(recorder_image_check(bytes.as_ptr(), bytes.len())),
                Question::Calendar(seconds) => recorder_calendar(*seconds),
                Question::Age([limit, read, stamp, status, clock]) => u64::from(recorder_age_class(*limit, *read, *stamp, *status, *clock)),
            }
        }
    }
}

/// The archive, asked over pipes. Its code is for x86-64, which this program is not.
#[cfg(piped)]
mod archive {
    use super::Question;
    use std::io::{Read, Write};
    use std::process::{Child, Command, Stdio};
    use std::thread;

    pub struct Archive {
        asker: Child,
    }

    impl Archive {
        pub fn start(command: &[String]) -> Archive {
            let asker = Command::new(&command[0]).args(&command[1..]).stdin(Stdio::piped()).stdout(Stdio::piped()).spawn();
            Archive { asker: asker.expect("the asker cannot be started") }
        }

        /// A thread writes while this one reads, so that neither pipe can fill up for good.
        pub fn answers(&mut self, questions: &[Question]) -> Vec<u64> {
            let bytes = batch(questions);
            let input = self.asker.stdin.as_mut().expect("the asker's input");
            let output = self.asker.stdout.as_mut().expect("the asker's output");
            let mut answers = vec![0; questions.len() * 8];
            thread::scope(|scope| {
                scope.spawn(move || input.write_all(&bytes).and_then(|()| input.flush()).expect("the asker takes no questions"));
                output.read_exact(&mut answers).expect("the asker does not answer");
            });
            answers.chunks_exact(8).map(|b| u64::from_le_bytes([b[0], b[1], b[2], b[3], b[4], b[5], b[6], b[7]])).collect()
        }
    }

    impl Drop for Archive {
        fn drop(&mut self) {
            drop(self.asker.stdin.take());
            let _ = self.asker.wait();
        }
    }

    /// As tests/asker.c reads them: a letter and 32-bit words for each question, and an `e` at the end of the batch.
    fn batch(questions: &[Question]) -> Vec<u8> {
        let mut bytes = Vec::new();
        for question in questions {
            match question {
                Question::Image(image) => {
                    bytes.push(b'i');
                    bytes.extend_from_slice(&(image.len() as u32).to_le_bytes());
                    bytes.extend_from_slice(image);
                }
                Question::Calendar(seconds) => {
                    bytes.push(b'c');
                    bytes.extend_from_slice(&seconds.to_le_bytes());
                }
                Question::Age(words) => {
                    bytes.push(b'a');
                    words.iter().for_each(|w| bytes.extend_from_slice(&w.to_le_bytes()));
                }
            }
        }
        bytes.push(b'e');
        bytes
    }
}

/// Numbers from a fixed seed: xorshift.
struct Random(u64);

impl Random {
    fn next(&mut self) -> u64 {
        self.0 ^= self.0 << 13;
        self.0 ^= self.0 >> 7;
        self.0 ^= self.0 << 17;
        self.0 >> 16
    }

    fn below(&mut self, n: u32) -> u32 {
        (self.next() % u64::from(n)) as u32
    }

    fn between(&mut self, low: u32, high: u32) -> u32 {
        low + self.below(high - low + 1)
    }

    fn word(&mut self) -> u32 {
        self.next() as u32
    }

    fn one_in(&mut self, n: u32) -> bool {
        self.below(n) == 0
    }

    fn pick<T: Copy>(&mut self, from: &[T]) -> T {
        from[self.below(from.len() as u32) as usize]
    }
}

/// Collects questions, asks them in batches, compares and counts.
struct Compared {
    archive: archive::Archive,
    waiting: Vec<Question>,
    passed: u64,
    failed: u64,
    met: BTreeMap<&'static str, u64>,
    blamed: BTreeSet<usize>,
}

const BATCH: usize = 4_096;
const SHOWN: u64 = 20;

/// All that can be answered, in the order of the report.
const CASES: [&str; 13] = [
    "image accepted",
    "image refused 1",
    "image refused 2",
    "image refused 3",
    "image refused 4",
    "second dated",
    "meter awake",
    "meter stale",
    "meter ahead of the clock",
    "meter invalid",
    "meter never",
    "meter refused 8",
    "meter refused 10",
];

fn case(question: &Question, answer: u64) -> &'static str {
    let place = match (question, answer) {
        (Question::Image(_), _) => answer >> 16,
        (Question::Calendar(_), _) => 5,
        (Question::Age(_), 0) => 6,
        (Question::Age([_, _, stamp, _, clock]), 1) => 7 + u64::from(stamp > clock),
        (Question::Age(_), 8) => 11,
        (Question::Age(_), 10) => 12,
        (Question::Age(_), _) => 7 + answer,
    };
    CASES[place as usize]
}

impl Compared {
    fn new(archive: archive::Archive) -> Compared {
        Compared { archive, waiting: Vec::new(), passed: 0, failed: 0, met: BTreeMap::new(), blamed: BTreeSet::new() }
    }

    fn ask(&mut self, question: Question) {
        self.waiting.push(question);
        if self.waiting.len() == BATCH {
            self.compare();
        }
    }

    fn image(&mut self, bytes: &[u8]) {
        self.ask(Question::Image(bytes.to_vec()));
    }

    fn compare(&mut self) {
        let questions = std::mem::take(&mut self.waiting);
        let answers = self.archive.answers(&questions);
        for (question, answer) in questions.iter().zip(answers) {
            self.count(question, answer, peer::answer(question));
        }
    }

    fn count(&mut self, question: &Question, archive: u64, peer: u64) {
        *self.met.entry(case(question, peer)).or_insert(0) += 1;
        if let (Question::Image(_), 4) = (question, peer >> 16) {
            self.blamed.insert((peer & 0xffff) as usize);
        }
        if archive == peer {
            self.passed += 1;
            return;
        }
        self.failed += 1;
        if self.failed <= SHOWN {
            println!("FAILED: {}: the archive answers {:#x}, the peer {:#x}", question, archive, peer);
        }
    }

    /// Prints how often each case was met, and whether all were.
    fn report(&mut self) -> bool {
        self.compare();
        if self.failed > SHOWN {
            println!("{} failures more", self.failed - SHOWN);
        }
        let counts: Vec<String> = CASES.iter().map(|case| format!("{} {}", case, self.met.get(case).unwrap_or(&0))).collect();
        println!("{}", counts.join(", "));
        // the 32 limits have no rule
        let entries = entries().iter().filter(|(at, _)| !(198..262).contains(at)).count();
        println!("entries blamed: {} of {}", self.blamed.len(), entries);
        if self.met.len() < CASES.len() || self.blamed.len() < entries {
            println!("FAILED: a case was never met");
            self.failed += 1;
        }
        println!("{} passed, {} failed", self.passed, self.failed);
        self.failed == 0
    }
}

// ---- the calendar

/// The first and the last second of every day of the clock, and seconds at random.
fn calendar(compared: &mut Compared, random: &mut Random) {
    for day in 0..=u32::MAX / 86_400 {
        compared.ask(Question::Calendar(day * 86_400));
        compared.ask(Question::Calendar((day * 86_400).saturating_add(86_399)));
    }
    for second in 0..7_200 {
        compared.ask(Question::Calendar(second));
        compared.ask(Question::Calendar(u32::MAX - second));
    }
    for _ in 0..100_000 {
        compared.ask(Question::Calendar(random.word()));
    }
}

// ---- age classes

const LIMITS: [u32; 9] = [0, 1, 2, 899, 900, 65_535, 65_536, u32::MAX - 1, u32::MAX];
const READ: [u32; 6] = [0, 1, 2, 256, 0x8000_0000, u32::MAX];
const STAMPS: [u32; 7] = [0, 1, 1_000, 0x7fff_ffff, 0x8000_0000, u32::MAX - 900, u32::MAX];
const STATUS: [u32; 13] = [0, 1, 2, 3, 4, 5, 6, 7, 8, 9, 255, 256, u32::MAX];

/// A clock at the stamp, the limit before it and past it, and one beside each; past 2^32 it begins anew.
fn clocks(limit: u32, stamp: u32) -> Vec<u32> {
    let edges = [stamp.wrapping_sub(limit), stamp, stamp.wrapping_add(limit)];
    edges.iter().flat_map(|edge| [edge.wrapping_sub(1), *edge, edge.wrapping_add(1)]).chain([0, u32::MAX]).collect()
}

fn ages(compared: &mut Compared, random: &mut Random) {
    for limit in LIMITS {
        for stamp in STAMPS {
            for clock in clocks(limit, stamp) {
                for read in READ {
                    for status in STATUS {
                        compared.ask(Question::Age([limit, read, stamp, status, clock]));
                    }
                }
            }
        }
    }
    for _ in 0..100_000 {
        let (limit, stamp) = (random.word() >> random.below(32), random.word() >> random.below(32));
        let clock = if random.one_in(2) { random.word() } else { random.pick(&clocks(limit, stamp)) };
        let status = random.word() >> random.between(26, 31);
        let read = random.word() >> random.below(32);
        compared.ask(Question::Age([limit, if random.one_in(4) { 0 } else { read }, stamp, status, clock]));
    }
}

// ---- images

const EDGE_BYTES: [u8; 22] = [0, 1, 2, 3, 4, 5, 7, 8, 12, 13, 15, 16, 28, 29, 30, 31, 32, 60, 127, 128, 254, 255];
const EDGE_WORDS: [u16; 16] = [0, 1, 256, 1_439, 1_440, 1_441, 1_969, 1_970, 2_000, 2_100, 2_106, 2_107, 10_000, 10_001, 32_768, 65_535];

/// A good image at random: what each entry may hold, with the edges more often than chance would have them.
fn good_image(random: &mut Random) -> Vec<u8> {
    let mut bytes = b"KRC\x01\x00".to_vec();
    bytes.push(random.pick(&[1, 2, 3, 4, 5, 6, 10, 12, 15, 20, 30, 60]));
    let fitted = random.word() as u16;
    for i in 0..16 {
        bytes.extend(good_input(random, fitted >> i & 1 == 1));
    }
    for _ in 0..8 {
        bytes.extend((random.word() as u16 & fitted).to_le_bytes());
    }
    for _ in 0..32 {
        bytes.push((random.between(1, 255) as u8).wrapping_add(128));
    }
    for _ in 0..16 {
        bytes.extend(good_slot(random, fitted));
    }
    for _ in 0..32 {
        bytes.extend((random.word() as u16).to_le_bytes());
    }
    for _ in 0..128 {
        bytes.extend(good_window(random));
    }
    for _ in 0..128 {
        bytes.push(if random.one_in(4) { 255 } else { random.below(32) as u8 });
    }
    for _ in 0..8 {
        bytes.extend(if random.one_in(4) { [0; 4] } else { good_season(random) });
    }
    for _ in 0..32 {
        bytes.extend(if random.one_in(4) { [0; 4] } else { good_holiday(random) });
    }
    for _ in 0..16 {
        let season = if random.one_in(4) { 255 } else { random.below(8) as u8 };
        bytes.extend(if random.one_in(4) { [255, 255] } else { [season, random.below(16) as u8] });
    }
    for _ in 0..16 {
        let rule = if random.one_in(4) { 255 } else { random.below(16) as u8 };
        bytes.extend(if random.one_in(4) { [255, 255] } else { [random.below(8) as u8, rule] });
    }
    bytes
}

fn good_input(random: &mut Random, fitted: bool) -> [u8; 7] {
    if !fitted {
        return [0; 7];
    }
    let longest = random.between(1, 255);
    let shortest = random.between(1, longest);
    let mut ratio = || if random.one_in(4) { random.pick(&[1u16, 10_000]) } else { random.between(1, 10_000) as u16 }.to_le_bytes();
    let (numerator, denominator) = (ratio(), ratio());
    let kind = random.between(1, 2) as u8;
    [kind, shortest as u8, longest as u8, numerator[0], numerator[1], denominator[0], denominator[1]]
}

fn good_slot(random: &mut Random, fitted: u16) -> [u8; 2] {
    let input = random.below(16) as u8;
    match random.below(4) {
        0 if fitted >> input & 1 == 1 => [0, input],
        1 => [1, random.below(8) as u8],
        2 => [2, random.below(4) as u8],
        _ => [255, 0],
    }
}

fn good_window(random: &mut Random) -> [u8; 4] {
    if random.one_in(4) {
        return [0; 4];
    }
    let end = if random.one_in(4) { 1_440 } else { random.between(1, 1_440) };
    let (first, end) = ((random.below(end) as u16).to_le_bytes(), (end as u16).to_le_bytes());
    [first[0], first[1], end[0], end[1]]
}

/// A day of each month up to 28, or an end of a month that is there in each year.
fn good_date(random: &mut Random) -> [u8; 2] {
    if random.one_in(3) {
        return random.pick(&[[31, 1], [30, 4], [31, 7], [31, 8], [30, 9], [31, 12]]);
    }
    [random.between(1, 28) as u8, random.between(1, 12) as u8]
}

fn good_season(random: &mut Random) -> [u8; 4] {
    let [first, second] = [good_date(random), if random.one_in(4) { [29, 2] } else { good_date(random) }];
    [first[0], first[1], second[0], second[1]]
}

fn good_holiday(random: &mut Random) -> [u8; 4] {
    let leap = random.one_in(4);
    let [day, month] = if leap { [29, 2] } else { good_date(random) };
    let dated = if leap { random.pick(&[1972, 2000, 2096, 2104]) } else { random.between(1_970, 2_106) as u16 };
    let year = if random.one_in(3) { 0 } else { dated }.to_le_bytes();
    [day, month, year[0], year[1]]
}

/// Asks about an image with some bytes set, and puts the old ones back.
fn with_bytes(compared: &mut Compared, image: &mut [u8], at: usize, bytes: &[u8]) {
    let kept = image[at..at + bytes.len()].to_vec();
    image[at..at + bytes.len()].copy_from_slice(bytes);
    compared.image(image);
    image[at..at + kept.len()].copy_from_slice(&kept);
}

/// Every byte, every two bytes and every entry set to edges.
fn edges(compared: &mut Compared, random: &mut Random, image: &mut [u8]) {
    compared.image(image);
    for at in 0..IMAGE_LENGTH {
        let flipped = image[at] ^ 1 << random.below(8);
        with_bytes(compared, image, at, &[flipped]);
        for byte in EDGE_BYTES {
            with_bytes(compared, image, at, &[byte]);
        }
    }
    for at in 0..IMAGE_LENGTH - 1 {
        for word in EDGE_WORDS {
            with_bytes(compared, image, at, &word.to_le_bytes());
        }
    }
    for (at, size) in entries() {
        for _ in 0..40 {
            let entry: Vec<u8> = (0..size).map(|_| random.pick(&EDGE_BYTES)).collect();
            with_bytes(compared, image, at, &entry);
        }
    }
}

/// Every length up to 1,200, and some far beyond: the image's own bytes, then zeros.
fn lengths(compared: &mut Compared, image: &[u8]) {
    let mut long = image.to_vec();
    long.resize(70_000, 0);
    for length in (0..=1_200).chain([2_047, 2_048, 2_252, 4_096, 65_535, 65_536, 65_536 + 1_126, 70_000]) {
        compared.image(&long[..length]);
    }
}

/// Good images at random, then with one byte, one entry or two entries damaged.
fn damaged(compared: &mut Compared, random: &mut Random) {
    let entries = entries();
    for _ in 0..15_000 {
        let mut image = good_image(random);
        compared.image(&image);
        let at = random.below(IMAGE_LENGTH as u32) as usize;
        with_bytes(compared, &mut image, at, &[random.word() as u8]);
        for _ in 0..2 {
            let (at, size) = random.pick(&entries);
            let entry: Vec<u8> = (0..size).map(|_| random.word() as u8).collect();
            image[at..at + size].copy_from_slice(&entry);
            compared.image(&image);
        }
    }
}

/// Bytes at random, of any length, and as an image with good letters and version.
fn noise(compared: &mut Compared, random: &mut Random) {
    for _ in 0..3_000 {
        let length = random.below(2_000);
        let bytes: Vec<u8> = (0..length).map(|_| random.word() as u8).collect();
        compared.image(&bytes);
        let mut image: Vec<u8> = (0..IMAGE_LENGTH).map(|_| random.word() as u8).collect();
        compared.image(&image);
        image[..5].copy_from_slice(b"KRC\x01\x00");
        compared.image(&image);
    }
}

fn main() {
    let words: Vec<String> = std::env::args().collect();
    let mut stored = std::fs::read(&words[1]).expect("the image cannot be read");
    let mut compared = Compared::new(archive::Archive::start(&words[2..]));
    let mut random = Random(0x9e37_79b9_7f4a_7c15);
    calendar(&mut compared, &mut random);
    ages(&mut compared, &mut random);
    lengths(&mut compared, &stored);
    edges(&mut compared, &mut random, &mut stored);
    let mut made = good_image(&mut random);
    edges(&mut compared, &mut random, &mut made);
    damaged(&mut compared, &mut random);
    noise(&mut compared, &mut random);
    let good = compared.report();
    drop(compared);
    std::process::exit(if good { 0 } else { 1 });
}
