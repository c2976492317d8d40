//! Settings as a script sets them, and the records that hold them (document 02, F-6).

/// The expiries that the setter takes, and that a record may hold.
const EXPIRIES: std::ops::RangeInclusive<u32> = 2500..=60_000;
const FRESH_EXPIRY: u32 = 20_000;

#[derive(Clone, Copy)]
pub struct Settings {
    /// Preview, the announcements of discovery, termination and timeouts, and merging by highest value.
    pub on: [bool; 5],
    pub limit: Option<u16>,
    pub expiry: u32,
}

impl Settings {
    pub const FRESH: Settings = Settings {
        on: [false; 5],
        limit: None,
        expiry: FRESH_EXPIRY,
    };

    /// What a line sets: a setter's, or one that puts a value in past the setter.
    pub fn note(&mut self, line: &str) {
        const FLAGS: [&str; 4] = [
            "preview",
            "announce_discovery",
            "announce_termination",
            "announce_timeout",
        ];
        let Some((word, value)) = line.split_once(' ') else {
            return;
        };
        let (limit, expiry) = (value.parse(), value.parse());
        match (word, value) {
            ("merge", "priority" | "highest") => self.on[4] = value == "highest",
            ("limit", "none") => self.limit = None,
            ("limit", _) if limit != Ok(0) => self.limit = limit.ok().or(self.limit),
            ("raw_limit", _) => self.limit = limit.ok().or(self.limit),
            ("expiry", _) if expiry.as_ref().is_ok_and(|e| EXPIRIES.contains(e)) => {
                self.expiry = expiry.unwrap_or(self.expiry)
            }
            ("raw_expiry", _) => self.expiry = expiry.unwrap_or(self.expiry),
            (_, "0" | "1") => {
                if let Some(i) = FLAGS.iter().position(|f| *f == word) {
                    self.on[i] = value == "1";
                }
            }
            _ => {}
        }
    }

    /// Whether the writer takes them.
    pub fn can_be_stored(&self) -> bool {
        self.limit != Some(0) && EXPIRIES.contains(&self.expiry)
    }
}

/// A record that a reader takes, with the bytes that follow it.
#[derive(Clone)]
pub struct Record {
    pub layout: u8,
    pub settings: Settings,
    pub rest: Vec<u8>,
}

impl Record {
    /// How many bytes the layout needs.
    pub fn needed(&self) -> usize {
        if self.layout == 1 { 10 } else { 14 }
    }

    pub fn bytes(&self) -> Vec<u8> {
        let mut bytes = vec![0x53, 0x54, self.layout];
        bytes.extend(self.settings.on.map(u8::from));
        bytes.extend(self.settings.limit.unwrap_or(0).to_be_bytes());
        if self.layout == 2 {
            bytes.extend(self.settings.expiry.to_be_bytes());
        }
        bytes.extend(&self.rest);
        bytes
    }

    /// The settings that are read from it.
    pub fn read(&self) -> Settings {
        Settings {
            expiry: if self.layout == 1 {
                FRESH_EXPIRY
            } else {
                self.settings.expiry
            },
            ..self.settings
        }
    }
}
