//! A stock-list server: one loop, many buyers. Each turn of the loop steps one open slot, so that a buyer's search and the
//! house's insertions go on side by side.
//!
//! Started with the name of a file, it opens the lots that are kept there, and keeps them there when it ends. What somebody has changed in the
//! file so that it is no list of lots any more is refused, and the file stays as it is.

use std::collections::VecDeque;
use std::error::Error;
use std::path::{Path, PathBuf};
use std::process::ExitCode;
use std::{env, fs, io};

use ghazfulit::{Index, Op, Refusal, Stop, Way, SLOTS};

/// The width of a page, and how many pages there are: a file has to be opened as it was made.
const K: u32 = 2;
const N: u32 = 64;

/// Who asks, and what for.
struct Request {
    who: &'static str,
    op: Op,
}

/// The loop: waiting requests, and what goes on in each slot.
struct Server {
    index: Index<'static>,
    requests: VecDeque<Request>,
    open: Vec<Option<Request>>,
}

impl Server {
    fn new(index: Index<'static>) -> Server {
        Server {
            index,
            requests: VecDeque::new(),
            open: (0..SLOTS).map(|_| None).collect(),
        }
    }

    /// Gives each free slot a request, oldest first. Who has scanned a blank tag is told so, and the slot takes the next one.
    fn admit(&mut self, slots: usize) -> Result<(), Refusal> {
        for slot in 0..slots {
            while self.open[slot].is_none() {
                let Some(request) = self.requests.pop_front() else {
                    return Ok(());
                };
                match self.index.begin(slot as u32, request.op) {
                    Ok(()) => self.open[slot] = Some(request),
                    Err(Refusal::BadKey) => println!("{}: {}", request.who, Refusal::BadKey),
                    Err(refusal) => return Err(refusal),
                }
            }
        }
        Ok(())
    }

    /// One turn: one slot is stepped.
    fn turn(&mut self, slot: usize) -> Result<(), Refusal> {
        let Some(request) = &self.open[slot] else {
            return Ok(());
        };
        let step = self.index.step(slot as u32)?;
        println!("{}: {step}", request.who);
        if step.is_end() {
            self.open[slot] = None;
        }
        Ok(())
    }

    /// Until nothing is left to do.
    fn run(&mut self, slots: usize) -> Result<(), Refusal> {
        self.admit(slots)?;
        while self.open.iter().any(Option::is_some) {
            for slot in 0..slots {
                self.turn(slot)?;
            }
            self.admit(slots)?;
        }
        Ok(())
    }
}

/// The words that are kept in a file, four bytes each, the lowest byte first.
fn kept(file: &Path) -> io::Result<Vec<u32>> {
    let bytes = fs::read(file)?;
    let word = |four: &[u8]| four.try_into().map(u32::from_le_bytes);
    let words: Result<Vec<u32>, _> = bytes.chunks(4).map(word).collect();
    words.map_err(|_| io::Error::new(io::ErrorKind::InvalidData, "the file ends within a word"))
}

/// Keeps words in a file. They are written beside it first, so that there is a whole file at every moment.
fn keep(file: &Path, words: &[u32]) -> io::Result<()> {
    let beside = file.with_extension("new");
    let bytes: Vec<u8> = words.iter().flat_map(|word| word.to_le_bytes()).collect();
    fs::write(&beside, bytes)?;
    fs::rename(beside, file)
}

/// A server with the lots of a file. Every word of it is tested before the first is used.
fn opened(file: &Path) -> Result<Server, Box<dyn Error>> {
    match Index::open(K, N, kept(file)?) {
        Ok(index) => Ok(Server::new(index)),
        Err(refused) => {
            let refusal = refused.refusal;
            Err(format!("the lots are not opened, {refusal:?}: {refusal}").into())
        }
    }
}

fn enter(key: u32, information: u32) -> Request {
    let op = Op::insert(key, information);
    Request { who: "house", op }
}

fn look(who: &'static str, key: u32) -> Request {
    let op = Op::search(key);
    Request { who, op }
}

/// The house enters fourteen lots; then it enters one more while buyers look for the last of them, and one for what follows: they wait for it
/// at the top page. A fifth buyer has scanned a blank tag. At last it downgrades that lot while two look for it, and goes the second way, so that they meet it on the leaf alone: one
/// finds the lot as it was, one as it is, and nobody misses it.
fn first_day(server: &mut Server) -> Result<(), Refusal> {
    server.requests.extend((1..15).map(|i| enter(10 * i, 5)));
    server.run(1)?;
    println!("five buyers come");
    server.requests.extend([
        enter(150, 1),
        look("first buyer", 140),
        look("second buyer", 140),
        look("third buyer", 999),
        Request {
            who: "fourth buyer",
            op: Op::next(141),
        },
        look("fifth buyer", 0),
    ]);
    server.run(5)?;
    println!("the house downgrades a lot");
    server.requests.extend([
        look("first buyer", 140),
        Request {
            who: "house",
            op: Op::regrade(140, 2).by(Way::Second),
        },
        look("second buyer", 140),
    ]);
    server.run(3)?;
    if let Err(refusal) = server.index.step(0) {
        println!("slot 0 again: {refusal}");
    }
    Ok(())
}

/// The lots are there again: a buyer looks for one, and the house enters another.
fn next_day(server: &mut Server) -> Result<(), Refusal> {
    println!("the lots are opened");
    let requests = [look("first buyer", 140), enter(160, 3)];
    server.requests.extend(requests);
    server.run(2)
}

/// All lots from a key on.
fn list(index: &mut Index, key: u32) -> Result<(), Stop> {
    for lot in index.lots(0, key) {
        let lot = lot?;
        println!("lot {}: grade {}", lot.key, lot.information);
    }
    Ok(())
}

fn serve(file: Option<&Path>) -> Result<(), Box<dyn Error>> {
    let mut server;
    match file.filter(|file| file.exists()) {
        Some(file) => {
            server = opened(file)?;
            next_day(&mut server)?;
        }
        None => {
            server = Server::new(Index::new(K, N)?);
            first_day(&mut server)?;
        }
    }
    list(&mut server.index, 120)?;
    if let Some(file) = file {
        keep(file, &server.index.into_words())?;
    }
    Ok(())
}

fn main() -> ExitCode {
    let file = env::args().nth(1).map(PathBuf::from);
    match serve(file.as_deref()) {
        Ok(()) => ExitCode::SUCCESS,
        Err(error) => {
            println!("{error}");
            ExitCode::FAILURE
        }
    }
}
