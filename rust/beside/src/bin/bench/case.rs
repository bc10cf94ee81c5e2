//! A call by the library and by the Rust, beside memcpy.

use crate::buffers::{copy, Buffers};
use crate::port::Port;
use crate::source::Source;
use crate::timing::Times;
use crate::{Call, Pages, Shape, PAGE};
use oracle::kernel_hal::mem;
use std::fmt;

/// Calls that leave the pool as it is are timed so many at a time, since one is near the clock's step.
const AT_A_TIME: u32 = 16;

pub struct Case {
    name: &'static str,
    shape: Shape,
    call: Call,
    len: usize,
    /// The most that the library should take of the Rust.
    goal: Option<f64>,
    port: Port,
    /// Of the library, the Rust and memcpy.
    times: [Times; 3],
}

impl Case {
    /// A call on the first `len` bytes.
    pub fn new(name: &'static str, shape: Shape, call: Call, len: usize) -> Case {
        let mut case = Case {
            name,
            shape,
            call,
            len,
            goal: None,
            port: Port::new(shape).expect("there is room for it"),
            times: Default::default(),
        };
        case.compare();
        case
    }

    pub fn within(self, goal: f64) -> Case {
        let goal = Some(goal);
        Case { goal, ..self }
    }

    /// Both do the same: they read the same bytes afterwards, and have as many frames free.
    fn compare(&mut self) {
        let mut buffers = [(); 2].map(|()| Buffers::default());
        let mut source = self.source(&buffers[0]);
        self.port.call(self.call, self.len, &mut buffers[0]);
        source.call(self.call, self.len, &mut buffers[1]);
        assert_eq!(self.port.free_frames(), mem::free_frames());
        self.port.call(Call::Read, self.len, &mut buffers[0]);
        source.call(Call::Read, self.len, &mut buffers[1]);
        assert!(buffers[0].buf == buffers[1].buf);
    }

    fn source(&self, buffers: &Buffers) -> Source {
        Source::new(self.shape, &buffers.bytes).expect("there is room for it")
    }

    /// How many calls are timed at once: those after the first must do what the first does.
    fn at_a_time(&self) -> u32 {
        let moves = self.call == Call::Write && self.shape.pages != Pages::Own;
        let large = self.len > PAGE;
        if moves || large || self.call == Call::CreateChild {
            1
        } else {
            AT_A_TIME
        }
    }

    pub fn round(&mut self, buffers: &mut Buffers) {
        let [mut port, mut rust, mut memcpy] = std::mem::take(&mut self.times);
        let (call, len, calls) = (self.call, self.len, self.at_a_time());
        twice(&mut port, |times| {
            self.port.reset();
            times.add(calls, || self.port.call(call, len, buffers));
        });
        twice(&mut rust, |times| {
            let mut source = self.source(buffers);
            times.add(calls, || source.call(call, len, buffers));
        });
        twice(&mut memcpy, |times| {
            times.add(calls, || reference(call, len, buffers))
        });
        self.times = [port, rust, memcpy];
    }
}

/// The first time isn't kept: it warms the caches.
fn twice(times: &mut Times, mut once: impl FnMut(&mut Times)) {
    once(&mut Times::default());
    once(times);
}

/// A memcpy of the bytes that the call copies, or shows.
fn reference(call: Call, len: usize, buffers: &mut Buffers) {
    let Buffers { bytes, buf, memory } = buffers;
    match call {
        Call::Read | Call::Peek => copy(&mut buf[..len], &memory[..len]),
        Call::Write => copy(&mut memory[..len], &bytes[..len]),
        Call::CreateChild | Call::Forecast => (),
    }
}

pub fn header() -> String {
    let columns = ["library, µs", "the Rust, µs", "memcpy, µs"];
    let columns = columns.map(|column| format!("  {column:>23}"));
    let ratios = "library/Rust goal library/memcpy Rust/memcpy";
    format!("{:<32} {ratios}{}", "", columns.concat())
}

impl fmt::Display for Case {
    fn fmt(&self, f: &mut fmt::Formatter<'_>) -> fmt::Result {
        let [port, rust, memcpy] = &self.times;
        let goal = self.goal.map_or(String::new(), |goal| goal.to_string());
        write!(f, "{:<32} {:>12.2} {goal:>4}", self.name, port.ratio(rust))?;
        if matches!(self.call, Call::CreateChild | Call::Forecast) {
            return write!(f, " {:>14} {:>11}  {port}  {rust}", "-", "-");
        }
        let (library, source) = (port.ratio(memcpy), rust.ratio(memcpy));
        write!(
            f,
            " {library:>14.2} {source:>11.2}  {port}  {rust}  {memcpy}"
        )
    }
}
