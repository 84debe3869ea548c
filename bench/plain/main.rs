// The same work as the verified program, in plain Rust, to hold its time and its answers against: a round's bytes are read and
// judged, applicants ask to the end, and the printed text and all letters are made in memory.
//
//     plain FILE [LETTERS_DIR]   prints the text (a refused round: `refused 5 at 12`, status 1); writes 0000.letter, ...
//     plain --time FILE K        K runs in memory: for each phase its name and the nanoseconds of every run
//
// rustc --edition 2021 -C opt-level=3 main.rs
use std::hint::black_box;
use std::io::Write;
use std::process::ExitCode;
use std::time::Instant;

const APPLICANTS: usize = 4000;
const WORKSHOPS: usize = 256;
const PLACES: u8 = 40;
const WISHES: usize = 20;
const ROWS: usize = 60000;
const NONE: u8 = 255;

/// Why a round is refused: the number of the cause and the byte at which it stands.
#[derive(Debug, PartialEq)]
struct Refusal {
    number: u32,
    place: usize,
}

fn refuse<T>(number: u32, place: usize) -> Result<T, Refusal> {
    Err(Refusal { number, place })
}

/// A round as it was read. The rows of workshop w are `rows[row_starts[w]..row_starts[w + 1]]`, by applicant.
struct Round {
    places: Vec<u8>,
    lots: Vec<u16>,
    list_starts: Vec<u32>,
    entries: Vec<u8>,
    row_starts: Vec<u32>,
    rows: Vec<Row>,
}

#[derive(Clone, Copy)]
struct Row {
    applicant: u16,
    points: u16,
}

/// The bytes not yet read.
struct Reader<'a> {
    bytes: &'a [u8],
    at: usize,
}

impl Reader<'_> {
    #[inline]
    fn byte(&mut self) -> Result<u8, Refusal> {
        match self.bytes.get(self.at) {
            Some(&x) => {
                self.at += 1;
                Ok(x)
            }
            None => refuse(1, self.bytes.len()),
        }
    }

    #[inline]
    fn word(&mut self) -> Result<u16, Refusal> {
        match self.bytes.get(self.at..self.at + 2) {
            Some(x) => {
                self.at += 2;
                Ok(u16::from_le_bytes([x[0], x[1]]))
            }
            None => refuse(1, self.bytes.len()),
        }
    }
}

fn read(bytes: &[u8]) -> Result<Round, Refusal> {
    let mut reader = Reader { bytes, at: 0 };
    let n = reader.word()? as usize;
    if n > APPLICANTS {
        return refuse(2, 0);
    }
    let m = reader.word()? as usize;
    if m == 0 || m > WORKSHOPS {
        return refuse(2, 2);
    }
    let places = read_places(&mut reader, m)?;
    let (lots, list_starts, entries) = read_lists(&mut reader, n, m)?;
    let (row_starts, rows) = read_rows(&mut reader, n, m)?;
    if reader.at < bytes.len() {
        return refuse(9, reader.at);
    }
    Ok(Round { places, lots, list_starts, entries, row_starts, rows })
}

fn read_places(reader: &mut Reader, m: usize) -> Result<Vec<u8>, Refusal> {
    let here = &reader.bytes[reader.at..];
    let there = &here[..m.min(here.len())];
    if let Some(w) = there.iter().position(|&p| p > PLACES) {
        return refuse(2, reader.at + w);
    }
    if there.len() < m {
        return refuse(1, reader.bytes.len());
    }
    reader.at += m;
    Ok(there.to_vec())
}

fn read_lists(
    reader: &mut Reader,
    n: usize,
    m: usize,
) -> Result<(Vec<u16>, Vec<u32>, Vec<u8>), Refusal> {
    let mut lots = Vec::with_capacity(n);
    let mut starts = Vec::with_capacity(n + 1);
    let mut entries = Vec::with_capacity(n * 8);
    let mut taken = vec![false; 65536];
    let mut listed_by = [0u16; WORKSHOPS];
    starts.push(0);
    for a in 0..n {
        let lot = reader.word()?;
        if std::mem::replace(&mut taken[lot as usize], true) {
            return refuse(5, reader.at - 2);
        }
        lots.push(lot);
        let count = reader.byte()? as usize;
        if count > WISHES {
            return refuse(3, reader.at - 1);
        }
        let here = &reader.bytes[reader.at..];
        let list = &here[..count.min(here.len())];
        for (k, &w) in list.iter().enumerate() {
            let mark = a as u16 + 1;
            if w as usize >= m || std::mem::replace(&mut listed_by[w as usize], mark) == mark {
                return refuse(4, reader.at + k);
            }
        }
        if list.len() < count {
            return refuse(1, reader.bytes.len());
        }
        entries.extend_from_slice(list);
        starts.push(entries.len() as u32);
        reader.at += count;
    }
    Ok((lots, starts, entries))
}

fn read_rows(reader: &mut Reader, n: usize, m: usize) -> Result<(Vec<u32>, Vec<Row>), Refusal> {
    let count = reader.word()? as usize;
    if count > ROWS {
        return refuse(6, reader.at - 2);
    }
    let here = &reader.bytes[reader.at..];
    let whole = &here[..(count * 5).min(here.len())];
    let mut starts = Vec::with_capacity(m + 1);
    let mut rows = Vec::with_capacity(count);
    let mut before = None;
    let five = whole.chunks_exact(5);
    let cut_short = five.remainder();
    for (i, row) in five.enumerate() {
        let w = row[0] as usize;
        let applicant = u16::from_le_bytes([row[1], row[2]]);
        let points = u16::from_le_bytes([row[3], row[4]]);
        if w >= m || applicant as usize >= n || points == 0 {
            return refuse(7, reader.at + 5 * i);
        }
        let key = Some((row[0] as u32) << 16 | applicant as u32);
        if key <= before {
            return refuse(8, reader.at + 5 * i);
        }
        before = key;
        while starts.len() <= w {
            starts.push(i as u32);
        }
        rows.push(Row { applicant, points });
    }
    if rows.len() < count {
        let no_workshop = cut_short.first().is_some_and(|&w| w as usize >= m);
        let no_applicant = cut_short
            .get(1..3)
            .is_some_and(|x| u16::from_le_bytes([x[0], x[1]]) as usize >= n);
        if no_workshop || no_applicant {
            return refuse(7, reader.at + 5 * rows.len());
        }
        return refuse(1, reader.bytes.len());
    }
    while starts.len() <= m {
        starts.push(count as u32);
    }
    reader.at += whole.len();
    Ok((starts, rows))
}

/// Who goes ahead, as one number: more points first, then the lower lot; 0 without points.
fn standing(points: u16, lot: u16) -> u32 {
    (points as u32) << 16 | (u16::MAX - lot) as u32
}

fn points_of(standing: u32) -> u16 {
    (standing >> 16) as u16
}

fn lot_of(standing: u32) -> u16 {
    u16::MAX - standing as u16
}

/// For each list entry the standing of its applicant there, or 0: one pass over applicants, with a cursor into each workshop's rows.
fn standings(round: &Round) -> Vec<u32> {
    let mut out = Vec::with_capacity(round.entries.len());
    let mut cursors: Vec<u32> = round.row_starts[..round.places.len()].to_vec();
    for (a, &lot) in round.lots.iter().enumerate() {
        for &w in list_of(round, a) {
            let w = w as usize;
            let rows = &round.rows[..round.row_starts[w + 1] as usize];
            let mut at = cursors[w] as usize;
            while at < rows.len() && (rows[at].applicant as usize) < a {
                at += 1;
            }
            cursors[w] = at as u32;
            out.push(match rows.get(at) {
                Some(row) if row.applicant as usize == a => standing(row.points, lot),
                _ => 0,
            });
        }
    }
    out
}

fn list_of(round: &Round, a: usize) -> &[u8] {
    &round.entries[round.list_starts[a] as usize..round.list_starts[a + 1] as usize]
}

/// Those whom a workshop keeps, best first.
struct Bench {
    places: usize,
    kept: Vec<Seat>,
}

#[derive(Clone, Copy)]
struct Seat {
    standing: u32,
    applicant: u16,
}

impl Bench {
    /// Takes the asker in if it belongs there, and says who is turned down, if anybody.
    fn ask(&mut self, asker: Seat) -> Option<Seat> {
        let mut out = None;
        if self.kept.len() == self.places {
            match self.kept.last() {
                Some(last) if last.standing < asker.standing => out = self.kept.pop(),
                _ => return Some(asker),
            }
        }
        let at = self.kept.partition_point(|seat| seat.standing > asker.standing);
        self.kept.insert(at, asker);
        out
    }
}

struct Outcome {
    asks: u32,
    placed: u32,
    /// position in the applicant's list, or NONE
    results: Vec<u8>,
    benches: Vec<Bench>,
}

fn ask_all(round: &Round, standings: &[u32]) -> Outcome {
    let mut benches: Vec<Bench> = round
        .places
        .iter()
        .map(|&p| Bench { places: p as usize, kept: Vec::with_capacity(p as usize) })
        .collect();
    let n = round.lots.len();
    let mut next: Vec<u32> = round.list_starts[..n].to_vec();
    let mut asks = 0;
    let mut left = 0;
    for first in 0..n {
        let mut a = first;
        loop {
            let at = next[a] as usize;
            if at == round.list_starts[a + 1] as usize {
                left += 1;
                next[a] = u32::MAX;
                break;
            }
            next[a] += 1;
            asks += 1;
            if standings[at] == 0 {
                continue;
            }
            let asker = Seat { standing: standings[at], applicant: a as u16 };
            match benches[round.entries[at] as usize].ask(asker) {
                Some(out) => a = out.applicant as usize,
                None => break,
            }
        }
    }
    let results = next
        .iter()
        .zip(&round.list_starts)
        .map(|(&at, &start)| if at == u32::MAX { NONE } else { (at - start - 1) as u8 })
        .collect();
    Outcome { asks, placed: n as u32 - left, results, benches }
}

#[derive(Clone, Copy)]
enum Cut {
    Open,
    Shut,
    Full(u32),
}

fn cut_of(bench: &Bench) -> Cut {
    match bench.kept.last() {
        _ if bench.places == 0 => Cut::Shut,
        Some(last) if bench.kept.len() == bench.places => Cut::Full(last.standing),
        _ => Cut::Open,
    }
}

/// All letters one after the other, and where each begins.
struct Letters {
    bytes: Vec<u8>,
    starts: Vec<u32>,
}

fn letters(round: &Round, standings: &[u32], outcome: &Outcome, cuts: &[Cut]) -> Letters {
    let n = round.lots.len();
    let mut bytes = Vec::with_capacity(6 * n + 8 * round.entries.len());
    let mut starts = Vec::with_capacity(n + 1);
    for (a, (&lot, &result)) in round.lots.iter().zip(&outcome.results).enumerate() {
        starts.push(bytes.len() as u32);
        let list = list_of(round, a);
        bytes.extend_from_slice(&(a as u16).to_le_bytes());
        bytes.extend_from_slice(&lot.to_le_bytes());
        bytes.push(list.len() as u8);
        for (&w, &own) in list.iter().zip(&standings[round.list_starts[a] as usize..]) {
            let (kind, points, lot) = match cuts[w as usize] {
                Cut::Open => (0, 0, 0),
                Cut::Shut => (2, 0, 0),
                Cut::Full(last) => (1, points_of(last), lot_of(last)),
            };
            let [own_low, own_high] = points_of(own).to_le_bytes();
            let [points_low, points_high] = points.to_le_bytes();
            let [lot_low, lot_high] = lot.to_le_bytes();
            bytes.extend_from_slice(&[
                w, own_low, own_high, kind, points_low, points_high, lot_low, lot_high,
            ]);
        }
        bytes.push(result);
    }
    starts.push(bytes.len() as u32);
    Letters { bytes, starts }
}

fn push_number(out: &mut Vec<u8>, x: u32) {
    let mut digits = [0u8; 10];
    let mut at = digits.len();
    let mut rest = x;
    loop {
        at -= 1;
        digits[at] = b'0' + (rest % 10) as u8;
        rest /= 10;
        if rest == 0 {
            break;
        }
    }
    out.extend_from_slice(&digits[at..]);
}

fn text(round: &Round, outcome: &Outcome, cuts: &[Cut]) -> Vec<u8> {
    let n = round.lots.len();
    let mut out = Vec::with_capacity(40 + 36 * n + 24 * cuts.len());
    out.extend_from_slice(b"asks ");
    push_number(&mut out, outcome.asks);
    out.extend_from_slice(b" placed ");
    push_number(&mut out, outcome.placed);
    out.push(b'\n');
    for (a, &result) in outcome.results.iter().enumerate() {
        out.extend_from_slice(b"applicant ");
        push_number(&mut out, a as u32);
        if result == NONE {
            out.extend_from_slice(b" none\n");
        } else {
            out.extend_from_slice(b" workshop ");
            push_number(&mut out, list_of(round, a)[result as usize] as u32);
            out.extend_from_slice(b" wish ");
            push_number(&mut out, result as u32 + 1);
            out.push(b'\n');
        }
    }
    for (w, &cut) in cuts.iter().enumerate() {
        out.extend_from_slice(b"cut ");
        push_number(&mut out, w as u32);
        match cut {
            Cut::Open => out.extend_from_slice(b" open\n"),
            Cut::Shut => out.extend_from_slice(b" shut\n"),
            Cut::Full(last) => {
                out.push(b' ');
                push_number(&mut out, points_of(last) as u32);
                out.extend_from_slice(b" lot ");
                push_number(&mut out, lot_of(last) as u32);
                out.push(b'\n');
            }
        }
    }
    out
}

fn ask(round: &Round) -> (Vec<u32>, Outcome) {
    let standings = standings(round);
    let outcome = ask_all(round, &standings);
    (standings, outcome)
}

fn tell(round: &Round, standings: &[u32], outcome: &Outcome) -> (Vec<u8>, Letters) {
    let cuts: Vec<Cut> = outcome.benches.iter().map(cut_of).collect();
    let letters = letters(round, standings, outcome, &cuts);
    (text(round, outcome, &cuts), letters)
}

fn settle(bytes: &[u8]) -> Result<(Vec<u8>, Letters), Refusal> {
    let round = read(bytes)?;
    let (standings, outcome) = ask(&round);
    Ok(tell(&round, &standings, &outcome))
}

struct Clock {
    name: &'static str,
    spent: Vec<u128>,
}

impl Clock {
    fn new(name: &'static str) -> Clock {
        Clock { name, spent: Vec::new() }
    }

    fn add(&mut self, start: Instant) {
        self.spent.push(start.elapsed().as_nanos());
    }
}

fn time(bytes: &[u8], runs: u32) -> Result<(), Refusal> {
    let mut clocks = ["read", "ask", "tell", "all"].map(Clock::new);
    for _ in 0..runs {
        let start = Instant::now();
        let round = read(black_box(bytes))?;
        clocks[0].add(start);
        let start = Instant::now();
        let (standings, outcome) = ask(black_box(&round));
        clocks[1].add(start);
        let start = Instant::now();
        let told = tell(&round, &standings, black_box(&outcome));
        clocks[2].add(start);
        black_box(&told);
    }
    for _ in 0..runs {
        let start = Instant::now();
        black_box(settle(black_box(bytes))?);
        clocks[3].add(start);
    }
    for clock in &clocks {
        print!("{}", clock.name);
        for nanos in &clock.spent {
            print!(" {nanos}");
        }
        println!();
    }
    Ok(())
}

fn write_letters(folder: &str, letters: &Letters) -> std::io::Result<()> {
    std::fs::create_dir_all(folder)?;
    for (a, ends) in letters.starts.windows(2).enumerate() {
        let letter = &letters.bytes[ends[0] as usize..ends[1] as usize];
        std::fs::write(format!("{folder}/{a:04}.letter"), letter)?;
    }
    Ok(())
}

fn run(args: &[&str]) -> std::io::Result<Result<(), Refusal>> {
    match args {
        ["--time", file, runs] => {
            let runs = runs.parse().map_err(std::io::Error::other)?;
            Ok(time(&std::fs::read(file)?, runs))
        }
        [file, folder @ ..] if folder.len() < 2 => match settle(&std::fs::read(file)?) {
            Ok((text, letters)) => {
                std::io::stdout().write_all(&text)?;
                if let [folder] = folder {
                    write_letters(folder, &letters)?;
                }
                Ok(Ok(()))
            }
            Err(refusal) => Ok(Err(refusal)),
        },
        _ => Err(std::io::Error::other("usage: plain FILE [LETTERS_DIR] | plain --time FILE K")),
    }
}

fn main() -> ExitCode {
    let args: Vec<String> = std::env::args().skip(1).collect();
    let args: Vec<&str> = args.iter().map(String::as_str).collect();
    match run(&args) {
        Ok(Ok(())) => ExitCode::SUCCESS,
        Ok(Err(Refusal { number, place })) => {
            println!("refused {number} at {place}");
            ExitCode::FAILURE
        }
        Err(error) => {
            eprintln!("{error}");
            ExitCode::FAILURE
        }
    }
}
