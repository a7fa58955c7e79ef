// A plain player of traces, for comparison: the same reading, checks and output, for a meter
// without scripts, schedules and an emergency profile, as in the traces of the benchmark. Arguments
// and output are those of trace_player_bench; with `text` after the count it prints only the trace.
use std::fmt::Write;
use std::time::Instant;

const OPENING: &str = "RELAYTRACE 1\ndevice 52454C415931\nstate 1\nmode 1\nvalue 0\nnow -\nnormal 4294967295\nemergency 4294967295\nminover 0\nminunder 0\n\
profile 0 FFFFFFFFFFFFFFFFFF8000FF 0\ngroups\nactions 0 0\nover 0 0\nunder 0 0\nscripts 0100\n\
schedule 0 0 5 0100\nschedule 1 0 5 0100\nschedule 2 0 5 0100\nschedule 3 0 5 0100\n";

const CONTROL: &str = "000060030AFF";
const LIMITER: &str = "0000110000FF";

#[derive(Default, Clone, Copy)]
struct Run {
    length: u64,
    fired: bool,
}

impl Run {
    // Counts a sample; returns whether the run fires with it.
    fn take(&mut self, past: bool, need: u64) -> bool {
        if !past {
            *self = Run::default();
            return false;
        }
        self.length = (self.length + 1).min(42_949_672_950);
        let fires = self.length >= need && !self.fired;
        self.fired |= self.length >= need;
        fires
    }
}

struct Meter {
    state: u8,
    mode: u8,
    threshold: u32,
    need_over: u64,
    need_under: u64,
    over: Run,
    under: Run,
    last: u32,
    moment: Option<u32>,
}

// The state after a trigger, and its result: the rows of modes 1 to 6, by the letters of the
// transitions.
fn moved(mode: u8, state: u8, letters: &[(&str, u8, u8)], targets: &[u8]) -> (u8, u8) {
    let of_mode = ["", "bcfgde", "bcfgae", "bcgde", "bcgae", "bcfgdeh", "bcgdeh"][mode as usize];
    for (letter, from, to) in letters {
        if of_mode.contains(letter) && *from == state {
            return (*to, 0);
        }
    }
    (state, if targets.contains(&state) { 0 } else { 2 })
}

impl Meter {
    // Enters a state. Both runs end if the meter becomes Connected.
    fn enter(&mut self, state: u8) {
        if state == 1 && self.state != 1 {
            self.over = Run::default();
            self.under = Run::default();
        }
        self.state = state;
    }

    // Applies a trigger; returns the result code.
    fn act(&mut self, letters: &[(&str, u8, u8)], targets: &[u8]) -> u8 {
        let (state, code) = moved(self.mode, self.state, letters, targets);
        self.enter(state);
        code
    }

    // Executes remote_disconnect (1) or remote_reconnect.
    fn execute(&mut self, method: u8) -> u8 {
        match method {
            1 => self.act(&[("b", 1, 0), ("c", 2, 0)], &[0]),
            _ => {
                let ready: &[u8] = if matches!(self.mode, 1 | 3 | 5 | 6) { &[1, 2] } else { &[1] };
                self.act(&[("a", 0, 1), ("d", 0, 2)], ready)
            }
        }
    }

    // Presses the button.
    fn press(&mut self) -> u8 {
        if self.state == 1 { self.act(&[("f", 1, 2)], &[0, 2]) } else { self.act(&[("e", 2, 1)], &[1]) }
    }

    // Applies a sample, and counts the firings over and under the threshold.
    fn sample(&mut self, value: u32, fired: &mut (u16, u16)) {
        self.last = value;
        fired.0 += self.over.take(value > self.threshold, self.need_over) as u16;
        fired.1 += self.under.take(value < self.threshold, self.need_under) as u16;
    }

    // Returns the value of an attribute in hexadecimal, or the result code of a refusal.
    fn value(&self, class: u32, name: &str, number: u32) -> Result<String, u8> {
        match (name, class, number) {
            (CONTROL, 70, 2) => Ok(if self.state == 1 { "0301".into() } else { "0300".into() }),
            (CONTROL, 70, 3) => Ok(format!("16{:02X}", self.state)),
            (CONTROL, 70, 4) => Ok(format!("16{:02X}", self.mode)),
            (LIMITER, 71, 3 | 4) => Ok(format!("06{:08X}", self.threshold)),
            (CONTROL | LIMITER, ..) => Err(if class == 70 || class == 71 { 3 } else { 9 }),
            _ => Err(4),
        }
    }

    // Writes an attribute; returns the result code.
    fn set(&mut self, name: &str, number: u32, bytes: &[u8]) -> u8 {
        match (name, number, bytes) {
            (CONTROL, 4, [0x16, mode]) if *mode <= 6 => {
                if *mode == 0 && self.state != 1 {
                    return 2;
                }
                self.mode = *mode;
                0
            }
            (CONTROL, 4, [0x16, _]) => 250,
            (LIMITER, 4, [6, a, b, c, d]) => {
                self.threshold = u32::from_be_bytes([*a, *b, *c, *d]);
                0
            }
            (CONTROL | LIMITER, 4, _) => 12,
            _ => 4,
        }
    }
}

// Reads a decimal number up to a limit.
fn number(word: Option<&str>, limit: u64) -> Option<u64> {
    let word = word?;
    if word.is_empty() || (word.len() > 1 && word.starts_with('0')) || !word.bytes().all(|b| b.is_ascii_digit()) {
        return None;
    }
    word.parse().ok().filter(|n| *n <= limit)
}

// Reads bytes in hexadecimal.
fn bytes_of(word: Option<&str>) -> Option<Vec<u8>> {
    let word = word?.as_bytes();
    if word.is_empty() || word.len() % 2 == 1 || !word.iter().all(|b| matches!(b, b'0'..=b'9' | b'A'..=b'F')) {
        return None;
    }
    let digit = |b: u8| if b <= b'9' { b - b'0' } else { b - b'A' + 10 };
    Some(word.chunks(2).map(|pair| digit(pair[0]) * 16 + digit(pair[1])).collect())
}

enum Event {
    Get(u32, String, u32),
    GetList(Vec<(u32, String, u32)>),
    Set(String, u32, Vec<u8>),
    Execute(u8),
    Button,
    Samples(Vec<u32>),
    Moment(u32),
}

// Reads a logical name.
fn name_of(word: Option<&str>) -> Option<String> {
    bytes_of(word).filter(|bytes| bytes.len() == 6)?;
    Some(word?.to_string())
}

// Reads a class, a logical name and a number.
fn attribute<'a>(words: &mut impl Iterator<Item = &'a str>) -> Option<(u32, String, u32)> {
    let class = number(words.next(), 65_535)? as u32;
    let name = name_of(words.next())?;
    let attribute = number(words.next(), 255)? as u32;
    number(words.next(), 1)?;
    Some((class, name, attribute))
}

// Reads the line of an event.
fn read_event(line: &str) -> Option<Event> {
    let mut words = line.split(' ');
    let event = match words.next()? {
        "get" => {
            number(words.next(), 16)?;
            let (class, name, attribute) = attribute(&mut words)?;
            Event::Get(class, name, attribute)
        }
        "getlist" => {
            number(words.next(), 16)?;
            let count = number(words.next(), 102)?;
            Event::GetList((0..count).map(|_| attribute(&mut words)).collect::<Option<Vec<_>>>()?)
        }
        "set" => {
            number(words.next(), 16)?;
            let (_, name, attribute) = attribute(&mut words)?;
            Event::Set(name, attribute, bytes_of(words.next())?)
        }
        "execute" => {
            number(words.next(), 16)?;
            number(words.next(), 65_535)?;
            name_of(words.next())?;
            let method = number(words.next(), 255)? as u8;
            let parameter = words.next()?;
            if parameter != "-" {
                bytes_of(Some(parameter))?;
            }
            Event::Execute(method)
        }
        "button" => Event::Button,
        "samples" => {
            let values = words.by_ref().map(|w| number(Some(w), u32::MAX as u64).map(|n| n as u32)).collect::<Option<Vec<_>>>()?;
            if values.len() > 256 {
                return None;
            }
            Event::Samples(values)
        }
        "moment" => Event::Moment(number(words.next(), u32::MAX as u64)? as u32),
        _ => return None,
    };
    if words.next().is_some() { None } else { Some(event) }
}

// Returns the words of a result.
fn words_of(result: Result<String, u8>) -> String {
    match result {
        Ok(value) => format!("value {value}"),
        Err(code) => format!("code {code}"),
    }
}

// Applies an event; returns the words of the reply.
fn step(meter: &mut Meter, event: &Event) -> String {
    match event {
        Event::Get(class, name, number) => words_of(meter.value(*class, name, *number)),
        Event::GetList(items) => {
            let mut reply = format!("values {}", items.len());
            for (class, name, number) in items {
                let _ = write!(reply, " {}", words_of(meter.value(*class, name, *number)));
            }
            reply
        }
        Event::Set(name, number, bytes) => format!("code {}", meter.set(name, *number, bytes)),
        Event::Execute(method) => format!("code {}", meter.execute(*method)),
        Event::Button => format!("code {}", meter.press()),
        Event::Samples(values) => {
            let mut fired = (0, 0);
            for value in values {
                meter.sample(*value, &mut fired);
            }
            format!("sampled {} {}", fired.0, fired.1)
        }
        Event::Moment(now) => match meter.moment {
            Some(last) if *now < last => format!("stale {last}"),
            _ => {
                meter.moment = Some(*now);
                "ran 0".into()
            }
        },
    }
}

// Reads a line of a label and a number.
fn field(line: Option<&str>, label: &str, limit: u64) -> Option<u64> {
    let mut words = line?.split(' ');
    if words.next()? != label {
        return None;
    }
    let value = number(words.next(), limit)?;
    if words.next().is_some() { None } else { Some(value) }
}

// Plays a trace; returns the lines of its events. `None`: it is no trace.
fn play(text: &str) -> Option<String> {
    let mut lines = text.strip_suffix('\n')?.split('\n');
    field(lines.next(), "RELAYTRACE", 2)?;
    lines.next()?;
    let state = field(lines.next(), "state", 2)? as u8;
    let mode = field(lines.next(), "mode", 6)? as u8;
    let last = field(lines.next(), "value", u32::MAX as u64)? as u32;
    lines.next()?;
    let threshold = field(lines.next(), "normal", u32::MAX as u64)? as u32;
    field(lines.next(), "emergency", u32::MAX as u64)?;
    let over = field(lines.next(), "minover", u32::MAX as u64)?;
    let under = field(lines.next(), "minunder", u32::MAX as u64)?;
    let mut lines = lines.skip(10);
    let count = field(lines.next(), "events", 65_536)?;
    let mut events = Vec::new();
    for _ in 0..count {
        events.push(read_event(lines.next()?)?);
    }
    if lines.next().is_some() {
        return None;
    }
    let mut meter = Meter {
        state,
        mode,
        threshold,
        need_over: (10 * over).max(1),
        need_under: (10 * under).max(1),
        over: Run::default(),
        under: Run::default(),
        last,
        moment: None,
    };
    let mut output = String::new();
    for (i, event) in events.iter().enumerate() {
        let reply = step(&mut meter, event);
        let supply = if meter.state == 1 { "on" } else { "off" };
        let _ = writeln!(output, "{}: {reply}; state {}; supply {supply}", i + 1, meter.state);
    }
    Some(output)
}

// Returns the line of event `i`.
fn line_at(i: u32) -> String {
    match i % 8 {
        0 => "set 1 71 0000110000FF 4 0 0600001388\n".into(),
        1 => "execute 1 70 000060030AFF 1 0F00\n".into(),
        2 => "execute 1 70 000060030AFF 2 -\n".into(),
        3 => "button\n".into(),
        4 => "get 16 70 000060030AFF 3 0\n".into(),
        5 => "samples 4990 4995 5000 5005 5010 5015 5020 5025 5030 5035 4980 4985 4990 4995 5001 5002\n".into(),
        6 => format!("moment {i}\n"),
        _ => "getlist 1 2 70 000060030AFF 3 0 70 000060030BFF 3 0\n".into(),
    }
}

fn main() {
    let events: u32 = std::env::args().nth(1).and_then(|word| word.parse().ok()).unwrap_or(16).min(65_536);
    let mut trace = format!("{OPENING}events {events}\n");
    for i in 0..events {
        trace.push_str(&line_at(i));
    }
    if std::env::args().nth(2).as_deref() == Some("text") {
        print!("{trace}");
        return;
    }
    let output = play(&trace).expect("a trace");
    let sum = output.bytes().fold(0u64, |sum, byte| sum.wrapping_mul(31).wrapping_add(u64::from(byte)));
    println!("{events} events: {} bytes in, {} bytes out, sum {sum}", trace.len(), output.len());
    let start = Instant::now();
    let output = std::hint::black_box(play(std::hint::black_box(&trace)));
    println!("played in {} us", start.elapsed().as_micros());
    drop(output);
}
