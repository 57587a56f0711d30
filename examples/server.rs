//! A small server's loop in Rust. Four clients hand in batches, the server hands them over piece by piece as they come, and
//! runs them when the queue is full or the input ends. It keeps one engine from the first input to the last, and prints a line for each batch.
//!
//!     server [--picture OUT.ppm ADDRESS STRIDE WIDTH HEIGHT FORMAT] [INPUT ..]
//!
//! An input is a replay file, standard input if none is named: a byte 1, and then records of a length (four bytes, the highest
//! first), a client's byte and a batch; the length counts both. A batch that was run prints client, ticket, status, fault and
//! place; a refused one its client and the refusal's number; a damaged input what is wrong with it. At the end a rectangle of
//! memory may be written as a picture; FORMAT is ARGB8888, RGB888 or RGB565. examples/run_rust builds and runs it.
use std::io::{self, BufReader, BufWriter, Read, Write};
use std::process::ExitCode;
use wenditsal::{Engine, Format, Refusal, ResetRule, Setup};

const MEMORY: usize = 65536;
const COMMON: u32 = 16384;
const WINDOW: u32 = 12288;
const LONGEST_RECORD: usize = 32769;
const PIECE: usize = 256;

struct Server<W: Write> {
    engine: Engine,
    lines: W,
}

impl<W: Write> Server<W> {
    /// Sets up the engine and opens the four clients. Files of version 1 are written for the old reset rule.
    fn start(lines: W) -> Result<Self, Refusal> {
        let mut engine = Engine::new(Setup {
            ring: 32768,
            memory: MEMORY,
            common: COMMON as usize,
            reset: ResetRule::Unblended,
        })?;
        for client in 0..4 {
            engine.open(COMMON + WINDOW * client, WINDOW)?;
        }
        Ok(Server { engine, lines })
    }

    /// Runs the oldest batch and prints its line. Answers whether there was one.
    fn run_one(&mut self) -> io::Result<bool> {
        let Ok(done) = self.engine.run() else {
            return Ok(false);
        };
        let fault = done.fault.map_or(0, |fault| fault.number());
        writeln!(
            self.lines,
            "{} {} {:08X} {fault} {}",
            done.client, done.ticket, done.status, done.place
        )?;
        Ok(true)
    }

    fn run_all(&mut self) -> io::Result<()> {
        while self.run_one()? {}
        Ok(())
    }

    /// Begins a batch. One that finds no slot or no room waits until older ones are run.
    fn begin(&mut self, client: u32, size: usize) -> io::Result<Result<(), Refusal>> {
        let mut answer = self.engine.begin(client, size);
        while matches!(answer, Err(Refusal::NoSlot | Refusal::NoRoom)) && self.run_one()? {
            answer = self.engine.begin(client, size);
        }
        Ok(answer)
    }

    /// Hands a batch over as it comes, a piece at a time; a server that has a whole batch at hand submits it. One that is cut
    /// short is dropped again. Answers whether all of it came. Lines come in the order of the batches.
    fn serve(&mut self, client: u32, size: usize, input: &mut impl Read) -> io::Result<bool> {
        let mut answer = self.begin(client, size)?;
        let mut left = size;
        while left > 0 {
            let piece = next(input, left.min(PIECE))?;
            if piece.is_empty() {
                // A cancel that is refused changes nothing.
                let _ = self.engine.cancel(client);
                return Ok(false);
            }
            if answer.is_ok() {
                answer = self.engine.piece(client, &piece).map(|_| ());
            }
            left -= piece.len();
        }
        if let Err(refusal) = answer {
            self.run_all()?;
            writeln!(self.lines, "{client} - - {} 0", refusal.number())?;
        }
        Ok(true)
    }

    /// Serves the records of an input. Answers what is wrong with a damaged one.
    fn serve_records(&mut self, input: &mut impl Read) -> io::Result<Option<&'static str>> {
        if next(input, 1)? != [1] {
            return Ok(Some("bad version"));
        }
        loop {
            let head = next(input, 4)?;
            if head.is_empty() {
                return Ok(None);
            }
            let Ok(head) = <[u8; 4]>::try_from(head) else {
                return Ok(Some("cut record"));
            };
            let length = u32::from_be_bytes(head) as usize;
            if length == 0 || length > LONGEST_RECORD {
                return Ok(Some("bad record"));
            }
            let whole = match next(input, 1)?.first() {
                Some(client) => self.serve((*client).into(), length - 1, input)?,
                None => false,
            };
            if !whole {
                return Ok(Some("cut record"));
            }
        }
    }

    /// Serves a whole input and runs what is left of it.
    fn serve_input(&mut self, input: impl Read) -> io::Result<()> {
        let damage = self.serve_records(&mut BufReader::new(input))?;
        self.run_all()?;
        if let Some(damage) = damage {
            writeln!(self.lines, "{damage}")?;
        }
        Ok(())
    }
}

/// The next bytes of an input, so many or all that are left.
fn next(input: &mut impl Read, count: usize) -> io::Result<Vec<u8>> {
    let mut bytes = Vec::new();
    input.take(count as u64).read_to_end(&mut bytes)?;
    Ok(bytes)
}

struct Rectangle {
    address: usize,
    stride: usize,
    width: usize,
    height: usize,
    format: Format,
}

impl Rectangle {
    /// ADDRESS STRIDE WIDTH HEIGHT FORMAT, if they name a rectangle that lies in memory.
    fn of_words(words: &[String]) -> Option<Self> {
        let [address, stride, width, height, format] = words else {
            return None;
        };
        let number = |word: &String, most: usize| match word.strip_prefix("0x") {
            Some(digits) => usize::from_str_radix(digits, 16)
                .ok()
                .filter(|number| *number <= most),
            None => word.parse().ok().filter(|number| *number <= most),
        };
        let format = match format.as_str() {
            "ARGB8888" => Format::Argb8888,
            "RGB888" => Format::Rgb888,
            "RGB565" => Format::Rgb565,
            _ => return None,
        };
        let (address, stride) = (number(address, MEMORY)?, number(stride, 65535)?);
        let (width, height) = (number(width, 4096)?, number(height, 4096)?);
        let end = address + stride * height.checked_sub(1)? + width * format.bytes() as usize;
        (width > 0 && end <= MEMORY).then_some(Rectangle {
            address,
            stride,
            width,
            height,
            format,
        })
    }

    /// The picture (PPM, P6): R, G, B of each pixel.
    fn picture(&self, memory: &[u8]) -> Vec<u8> {
        let mut picture = format!("P6\n{} {}\n255\n", self.width, self.height).into_bytes();
        let bytes = self.format.bytes() as usize;
        for y in 0..self.height {
            let row = self.address + self.stride * y;
            for pixel in memory[row..row + self.width * bytes].chunks(bytes) {
                picture.extend(colour(pixel));
            }
        }
        picture
    }
}

/// R, G, B of a pixel's bytes.
fn colour(pixel: &[u8]) -> [u8; 3] {
    match *pixel {
        [low, high] => {
            let word = u16::from_le_bytes([low, high]);
            let (red, green, blue) = (word >> 11, word >> 5 & 63, word & 31);
            [
                red * 8 + red / 4,
                green * 4 + green / 16,
                blue * 8 + blue / 4,
            ]
            .map(|channel| channel as u8)
        }
        [blue, green, red, ..] => [red, green, blue],
        _ => [0; 3],
    }
}

fn served(
    inputs: &[String],
    picture: Option<(String, Rectangle)>,
) -> Result<(), Box<dyn std::error::Error>> {
    let mut server = Server::start(BufWriter::new(io::stdout().lock()))?;
    if inputs.is_empty() {
        server.serve_input(io::stdin().lock())?;
    }
    for name in inputs {
        let input = std::fs::File::open(name).map_err(|error| format!("{name}: {error}"))?;
        server.serve_input(input)?;
    }
    if let Some((name, rectangle)) = picture {
        std::fs::write(name, rectangle.picture(server.engine.memory()))?;
    }
    server.lines.flush()?;
    Ok(())
}

fn main() -> ExitCode {
    let mut words: Vec<String> = std::env::args().skip(1).collect();
    let mut picture = None;
    if words.first().is_some_and(|word| word == "--picture") {
        let rectangle = words.get(2..7).and_then(Rectangle::of_words);
        let Some(rectangle) = rectangle else {
            eprintln!("server [--picture OUT.ppm ADDRESS STRIDE WIDTH HEIGHT FORMAT] [INPUT ..]; the rectangle must lie in memory");
            return ExitCode::from(2);
        };
        picture = Some((words[1].clone(), rectangle));
        words.drain(..7);
    }
    match served(&words, picture) {
        Ok(()) => ExitCode::SUCCESS,
        Err(error) => {
            eprintln!("server: {error}");
            ExitCode::FAILURE
        }
    }
}
