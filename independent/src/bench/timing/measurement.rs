//! One thing done by several forms of code, timed in turns; the first form is the proved one.

use std::hint::black_box;
use std::time::{Duration, Instant};

pub const ROUNDS: usize = 45;
/// What one form's turn in a round takes, about.
pub const TURN: Duration = Duration::from_millis(4);

/// One form, which is given how often to run; and what it took at least, in nanoseconds a call.
pub struct Form {
    pub name: &'static str,
    pub least: f64,
    run: Box<dyn FnMut(u32)>,
    calls: u32,
}

pub struct Measurement {
    pub name: String,
    /// The bytes of one call, where its throughput is to be shown.
    pub bytes: Option<usize>,
    pub forms: Vec<Form>,
}

impl Measurement {
    pub fn new(name: impl Into<String>) -> Measurement {
        Measurement {
            name: name.into(),
            bytes: None,
            forms: Vec::new(),
        }
    }

    pub fn with_throughput(mut self, bytes: usize) -> Measurement {
        self.bytes = Some(bytes);
        self
    }

    /// One form more; its result is kept from being optimized away.
    pub fn form<R>(
        mut self,
        name: &'static str,
        mut call: impl FnMut() -> R + 'static,
    ) -> Measurement {
        let run = Box::new(move |calls| {
            for _ in 0..calls {
                black_box(call());
            }
        });
        self.forms.push(Form {
            name,
            least: f64::INFINITY,
            run,
            calls: 1,
        });
        self
    }

    /// Every form has one turn; in every second round they go in the other order.
    fn round(&mut self, number: usize) {
        match number % 2 {
            0 => self.forms.iter_mut().for_each(Form::turn),
            _ => self.forms.iter_mut().rev().for_each(Form::turn),
        }
    }
}

/// Makes all measurements at once, round by round, so that a disturbance falls on all of them.
pub fn measure(measurements: &mut [Measurement]) {
    for measurement in &mut *measurements {
        measurement.forms.iter_mut().for_each(Form::warm_up);
    }
    for number in 0..ROUNDS {
        for measurement in &mut *measurements {
            measurement.round(number);
        }
    }
}

impl Form {
    fn time(&mut self) -> Duration {
        let start = Instant::now();
        (self.run)(self.calls);
        start.elapsed()
    }

    /// Doubles the calls until they take half a turn or more.
    fn warm_up(&mut self) {
        while self.time() < TURN / 2 && self.calls < 1 << 30 {
            self.calls *= 2;
        }
    }

    fn turn(&mut self) {
        let time = self.time().as_nanos() as f64 / f64::from(self.calls);
        self.least = self.least.min(time);
    }
}
