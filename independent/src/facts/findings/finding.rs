//! A finding: its kind, grade, lines, ports and what else it names.

/// The kinds in the order in which the text has them.
#[derive(Clone, Copy, Debug, PartialEq, Eq, PartialOrd, Ord)]
pub enum Kind {
    Replaced,
    SameChannel,
    SameAddress,
    NoPort,
    NotSetUp,
    PortTwice,
    SharedInBlock,
    NotFollowed,
    BitsIgnored,
    NoChange,
    OddAlias,
    NoAddress,
}

pub const KINDS: [Kind; 12] = [
    Kind::Replaced,
    Kind::SameChannel,
    Kind::SameAddress,
    Kind::NoPort,
    Kind::NotSetUp,
    Kind::PortTwice,
    Kind::SharedInBlock,
    Kind::NotFollowed,
    Kind::BitsIgnored,
    Kind::NoChange,
    Kind::OddAlias,
    Kind::NoAddress,
];

impl Kind {
    pub fn name(self) -> &'static str {
        match self {
            Kind::Replaced => "replaced",
            Kind::SameChannel => "same-channel",
            Kind::SameAddress => "same-address",
            Kind::NoPort => "no-port",
            Kind::NotSetUp => "not-set-up",
            Kind::PortTwice => "port-twice",
            Kind::SharedInBlock => "shared-in-block",
            Kind::NotFollowed => "not-followed",
            Kind::BitsIgnored => "bits-ignored",
            Kind::NoChange => "no-change",
            Kind::OddAlias => "odd-alias",
            Kind::NoAddress => "no-address",
        }
    }
}

#[derive(Clone, Copy, Debug, PartialEq, Eq, PartialOrd, Ord)]
pub enum Grade {
    Wrong,
    Meant,
    Note,
}

impl Grade {
    pub fn name(self) -> &'static str {
        match self {
            Grade::Wrong => "wrong",
            Grade::Meant => "meant",
            Grade::Note => "note",
        }
    }
}

/// The formats that have channels; RAW10 is in 0x70, RAW12 in 0x71.
#[derive(Clone, Copy, Debug, PartialEq, Eq, PartialOrd, Ord)]
pub enum Pictures {
    Raw10,
    Raw12,
}

impl Pictures {
    pub fn name(self) -> &'static str {
        match self {
            Pictures::Raw10 => "raw10",
            Pictures::Raw12 => "raw12",
        }
    }
}

/// What a finding names beside its lines and ports. "`register` stands with the kinds that concern
/// one write".
#[derive(Clone, Copy, Debug, PartialEq, Eq, PartialOrd, Ord)]
pub enum About {
    Register(u8),
    Channel {
        output: u8,
        channel: u8,
        format: Pictures,
    },
    Address(u8),
    Nothing,
}

#[derive(Clone, Debug, PartialEq, Eq)]
pub struct Finding {
    pub kind: Kind,
    pub grade: Grade,
    /// Rising, each once.
    pub lines: Vec<u64>,
    /// Rising, each once.
    pub ports: Vec<u8>,
    pub about: About,
}
