//! A call as data, and random ones, whose texts and numbers are often at an edge.
use std::time::Duration;

/// A random number generator (SplitMix64).
pub struct Random(pub u64);

impl Random {
    fn next(&mut self) -> u64 {
        self.0 = self.0.wrapping_add(0x9e37_79b9_7f4a_7c15);
        let mut z = self.0;
        z = (z ^ (z >> 30)).wrapping_mul(0xbf58_476d_1ce4_e5b9);
        z = (z ^ (z >> 27)).wrapping_mul(0x94d0_49bb_1331_11eb);
        z ^ (z >> 31)
    }

    fn below(&mut self, end: u64) -> u64 {
        self.next() % end
    }

    /// Returns true once in so many calls.
    fn once_in(&mut self, count: u64) -> bool {
        self.below(count) == 0
    }

    fn one_of<T: Clone>(&mut self, those: &[T]) -> T {
        those[self.below(those.len() as u64) as usize].clone()
    }

    /// Returns a whole number: one at an edge, or one whose number of bits is random.
    fn whole(&mut self) -> u64 {
        const EDGES: [u64; 10] = [0, 1, 9, 10, u32::MAX as u64, 1 << 32, i64::MAX as u64, 1 << 63, u64::MAX - 1, u64::MAX];
        if self.once_in(6) {
            return self.one_of(&EDGES);
        }
        let shift = self.below(64);
        self.next() >> shift
    }

    /// Returns a float: one at an edge, a decimal of few places, or one of random bits.
    fn float(&mut self) -> f64 {
        const TWO_63: f64 = 9_223_372_036_854_775_808.0;
        const EDGES: [f64; 26] = [
            0.0,
            -0.0,
            1.0,
            -1.0,
            0.1,
            1e-6,
            1e-7,
            1e-30,
            1.5e-30,
            1e-31,
            5e-31,
            123.456e-28,
            5e-324,
            f64::MIN_POSITIVE,
            1e15,
            1e16,
            1e17,
            9_007_199_254_740_993.0,
            TWO_63,
            -TWO_63,
            TWO_63 * TWO_63 * 2.0,
            1.7e38,
            f64::MAX,
            f64::NAN,
            f64::INFINITY,
            f64::NEG_INFINITY,
        ];
        match self.below(8) {
            0 => self.one_of(&EDGES),
            1 | 2 => f64::from_bits(self.next()),
            3 => self.whole() as f64 / (1u64 << self.below(63)) as f64,
            4 => f64::from_bits(self.one_of(&EDGES).to_bits() ^ self.below(4)),
            _ => self.whole() as i64 as f64 / 10f64.powi(self.below(12) as i32),
        }
    }

    fn duration(&mut self) -> Duration {
        let seconds = self.whole();
        Duration::new(seconds, self.below(1_000_000_000) as u32)
    }

    fn many<T>(&mut self, make: impl Fn(&mut Self) -> T) -> Vec<T> {
        (0..self.below(5)).map(|_| make(self)).collect()
    }

    /// Returns a text, often with separators and dots.
    fn text(&mut self) -> String {
        const PIECES: [&str; 20] = [
            "",
            "a",
            "page",
            "home",
            "some.counter",
            ".",
            "..",
            ":",
            "|",
            ",",
            "\n",
            "#",
            "@0.5",
            " ",
            "é",
            "日本",
            "\u{10ffff}",
            "\0",
            "|c",
            "web03.example.com",
        ];
        if self.once_in(200) {
            return "x".repeat(self.below(3000) as usize);
        }
        (0..self.below(4)).map(|_| self.one_of(&PIECES)).collect()
    }

    fn tag(&mut self) -> (Option<String>, String) {
        let key = if self.once_in(3) { None } else { Some(self.text()) };
        (key, self.text())
    }

    fn maybe<T>(&mut self, make: impl Fn(&mut Self) -> T) -> Option<T> {
        self.once_in(3).then(|| make(self))
    }
}

/// A kind of metric.
#[derive(Clone, Copy, Debug, PartialEq)]
pub enum Kind {
    Counter,
    Timer,
    Gauge,
    Meter,
    Histogram,
    Distribution,
    Set,
}

impl Kind {
    /// Returns the text of the kind in a line.
    pub fn text(self) -> &'static str {
        ["c", "ms", "g", "m", "h", "d", "s"][self as usize]
    }
}

/// The value of a call, of a type that calls of its kind take.
#[derive(Clone, Debug)]
pub enum Value {
    I64(i64),
    I32(i32),
    U64(u64),
    U32(u32),
    F64(f64),
    Time(Duration),
    U64s(Vec<u64>),
    F64s(Vec<f64>),
    Times(Vec<Duration>),
    /// The value of `incr`.
    Up,
    /// The value of `decr`.
    Down,
}

impl Value {
    /// Returns the floats of the value.
    pub fn floats(&self) -> &[f64] {
        match self {
            Value::F64(x) => std::slice::from_ref(x),
            Value::F64s(xs) => xs,
            _ => &[],
        }
    }

    /// Returns whether there is a constructor of a metric of this kind and value.
    fn has_constructor(&self, kind: Kind) -> bool {
        match kind {
            Kind::Counter | Kind::Set => matches!(self, Value::I64(_)),
            _ => matches!(self, Value::U64(_) | Value::F64(_)),
        }
    }

    fn random(kind: Kind, r: &mut Random) -> Value {
        let kinds: &[fn(&mut Random) -> Value] = match kind {
            Kind::Counter => &[
                Self::i64,
                |r| Value::I32(r.whole() as i32),
                Self::u64,
                |r| Value::U32(r.whole() as u32),
                |_| Value::Up,
                |_| Value::Down,
            ],
            Kind::Timer => &[Self::u64, Self::time, Self::u64s, Self::times],
            Kind::Gauge => &[Self::u64, Self::f64, Self::f64],
            Kind::Meter => &[Self::u64],
            Kind::Histogram => &[Self::u64, Self::f64, Self::time, Self::u64s, Self::f64s, Self::times],
            Kind::Distribution => &[Self::u64, Self::f64, Self::u64s, Self::f64s],
            Kind::Set => &[Self::i64],
        };
        r.one_of(kinds)(r)
    }

    fn i64(r: &mut Random) -> Value {
        Value::I64(r.whole() as i64)
    }

    fn u64(r: &mut Random) -> Value {
        Value::U64(r.whole())
    }

    fn f64(r: &mut Random) -> Value {
        Value::F64(r.float())
    }

    fn time(r: &mut Random) -> Value {
        Value::Time(r.duration())
    }

    fn u64s(r: &mut Random) -> Value {
        Value::U64s(r.many(Random::whole))
    }

    fn f64s(r: &mut Random) -> Value {
        Value::F64s(r.many(Random::float))
    }

    fn times(r: &mut Random) -> Value {
        Value::Times(r.many(Random::duration))
    }
}

/// Which call is made: one that sends at once, `try_send` or `send` of a builder, or a constructor of a metric.
#[derive(Clone, Copy, Debug, PartialEq)]
pub enum Form {
    Plain,
    TrySend,
    Send,
    Constructor,
}

/// A call, and the client that makes it.
#[derive(Clone, Debug)]
pub struct Call {
    pub prefix: String,
    pub defaults: Vec<(Option<String>, String)>,
    pub default_container: Option<String>,
    pub form: Form,
    pub kind: Kind,
    pub key: String,
    pub value: Value,
    pub tags: Vec<(Option<String>, String)>,
    pub container: Option<String>,
    pub rate: Option<f64>,
    pub time: Option<u64>,
}

impl Call {
    /// Returns whether the metric is made by its constructor, which has neither options nor a client.
    pub fn is_constructed(&self) -> bool {
        self.form == Form::Constructor
    }

    /// Returns the rate that the call has in its line.
    pub fn sent_rate(&self) -> Option<f64> {
        self.rate.filter(|_| matches!(self.form, Form::TrySend | Form::Send))
    }

    pub fn random(r: &mut Random) -> Call {
        use Kind::*;
        let kind = r.one_of(&[Counter, Timer, Gauge, Meter, Histogram, Distribution, Set]);
        let value = Value::random(kind, r);
        let form = r.one_of(&[Form::Plain, Form::TrySend, Form::TrySend, Form::Send, Form::Constructor]);
        Call {
            prefix: r.text(),
            defaults: r.many(Random::tag),
            default_container: r.maybe(Random::text),
            // a value without a constructor is sent in another way
            form: if form == Form::Constructor && !value.has_constructor(kind) { Form::TrySend } else { form },
            kind,
            key: r.text(),
            value,
            tags: r.many(Random::tag),
            container: r.maybe(Random::text),
            rate: r.maybe(Random::float),
            time: r.maybe(Random::whole),
        }
    }
}
