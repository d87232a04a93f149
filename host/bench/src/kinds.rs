//! What a row measures, and in which section of the table it stands.

/// What a method encrypts and authenticates with.
#[derive(Clone, Copy, Debug, PartialEq, Eq)]
pub enum Cipher {
    AesGcm,
    /// With Poly1305.
    ChaCha {
        rounds: usize,
    },
}

/// A method of Shadowsocks, whose salts are as long as its keys.
#[derive(Clone, Copy, Debug, PartialEq, Eq)]
pub struct Method {
    pub number: u64,
    pub key_length: usize,
    pub cipher: Cipher,
}

impl Method {
    const fn aes(number: u64, key_length: usize) -> Self {
        let cipher = Cipher::AesGcm;
        Self {
            number,
            key_length,
            cipher,
        }
    }

    const fn chacha(number: u64, rounds: usize) -> Self {
        Self {
            number,
            key_length: 32,
            cipher: Cipher::ChaCha { rounds },
        }
    }

    /// The cipher's name.
    pub fn cipher_name(self) -> String {
        match self.cipher {
            Cipher::AesGcm => format!("AES-{}", 8 * self.key_length),
            Cipher::ChaCha { rounds } => format!("ChaCha{rounds}"),
        }
    }
}

/// The methods of Shadowsocks 2022: the two that are required, with AES, and those of its
/// section 4, with ChaCha. The libraries have only the first of these.
pub const AES_METHODS: [Method; 2] = [Method::aes(1, 16), Method::aes(2, 32)];
pub const CHACHA20: Method = Method::chacha(3, 20);
pub const REDUCED: [Method; 2] = [Method::chacha(4, 12), Method::chacha(5, 8)];

pub const METHODS: [Method; 5] = [
    AES_METHODS[0],
    AES_METHODS[1],
    CHACHA20,
    REDUCED[0],
    REDUCED[1],
];

/// The methods of the 2017 edition.
pub const SIP004_METHODS: [Method; 3] = [
    Method::aes(11, 16),
    Method::aes(12, 24),
    Method::aes(13, 32),
];

#[derive(Clone, Copy, Debug, PartialEq, Eq)]
pub enum Call {
    Seal,
    Open,
    /// A message with a wrong tag is opened, and refused.
    Refuse,
}

#[derive(Clone, Copy, Debug, PartialEq, Eq)]
pub enum Kind {
    Datagram(Method, Call),
    /// A datagram of the 2017 edition.
    Sip004(Method, Call),
    Chunk(Method, Call),
    /// The cipher of a method alone, on a text.
    Body(Method, Call),
    /// AES in counter mode.
    Counter {
        key_length: usize,
    },
    Ghash,
    /// AES in counter mode, beside the same shape in plain Rust.
    Planes {
        key_length: usize,
    },
    /// ChaCha's key stream.
    Stream {
        rounds: usize,
    },
    Poly1305,
    /// BLAKE3 of a text.
    Hash,
    Subkey,
}

/// Rows that are measured against the same.
#[derive(Clone, Copy, Debug, PartialEq, Eq)]
pub enum Section {
    Datagrams,
    Forgeries,
    ChaChaDatagrams,
    ReducedDatagrams,
    Sip004,
    Bodies,
    ChaChaBodies,
    Chunks,
    ChaChaChunks,
    ReducedChunks,
    Primitives,
    Planes,
    ChaChaPrimitives,
    ReducedPrimitives,
    Hashes,
    Subkeys,
}

/// Whom a section's rows are measured against.
#[derive(Clone, Copy, Debug, PartialEq, Eq)]
pub enum Others {
    /// The libraries that have AES.
    Aes,
    /// Those that have ChaCha20.
    ChaCha20,
    /// Plain Rust alone.
    Plain,
}

impl Call {
    pub fn name(self) -> &'static str {
        match self {
            Call::Seal => "seal",
            Call::Open => "open",
            Call::Refuse => "refuse",
        }
    }
}

impl Kind {
    pub fn name(self) -> String {
        match self {
            Kind::Datagram(method, call)
            | Kind::Sip004(method, call)
            | Kind::Chunk(method, call) => {
                format!("method {}, {}", method.number, call.name())
            }
            Kind::Body(method, call) => {
                let mode = match method.cipher {
                    Cipher::AesGcm => "-GCM",
                    Cipher::ChaCha { .. } => "",
                };
                format!("{}{mode} {}", method.cipher_name(), call.name())
            }
            Kind::Counter { key_length } => format!("AES-{} CTR", 8 * key_length),
            Kind::Planes { key_length } => format!("AES-{} planes", 8 * key_length),
            Kind::Ghash => "GHASH".to_string(),
            Kind::Stream { rounds } => format!("ChaCha{rounds} stream"),
            Kind::Poly1305 => "Poly1305".to_string(),
            Kind::Hash => "BLAKE3 hash".to_string(),
            Kind::Subkey => "BLAKE3 subkey".to_string(),
        }
    }

    pub fn section(self) -> Section {
        match self {
            Kind::Datagram(method, call) => match (others(method.cipher), call) {
                (Others::Aes, Call::Refuse) => Section::Forgeries,
                (Others::Aes, _) => Section::Datagrams,
                (Others::ChaCha20, _) => Section::ChaChaDatagrams,
                (Others::Plain, _) => Section::ReducedDatagrams,
            },
            Kind::Sip004(..) => Section::Sip004,
            Kind::Chunk(method, _) => match others(method.cipher) {
                Others::Aes => Section::Chunks,
                Others::ChaCha20 => Section::ChaChaChunks,
                Others::Plain => Section::ReducedChunks,
            },
            Kind::Body(method, _) => match method.cipher {
                Cipher::AesGcm => Section::Bodies,
                Cipher::ChaCha { .. } => Section::ChaChaBodies,
            },
            Kind::Counter { .. } | Kind::Ghash => Section::Primitives,
            Kind::Planes { .. } => Section::Planes,
            Kind::Stream { rounds: 20 } | Kind::Poly1305 => Section::ChaChaPrimitives,
            Kind::Stream { .. } => Section::ReducedPrimitives,
            Kind::Hash => Section::Hashes,
            Kind::Subkey => Section::Subkeys,
        }
    }
}

/// Who has a cipher.
fn others(cipher: Cipher) -> Others {
    match cipher {
        Cipher::AesGcm => Others::Aes,
        Cipher::ChaCha { rounds: 20 } => Others::ChaCha20,
        Cipher::ChaCha { .. } => Others::Plain,
    }
}

impl Section {
    /// In the order of the table: the whole first, its parts behind it.
    pub const ALL: [Section; 16] = [
        Section::Datagrams,
        Section::Forgeries,
        Section::ChaChaDatagrams,
        Section::ReducedDatagrams,
        Section::Sip004,
        Section::Bodies,
        Section::ChaChaBodies,
        Section::Chunks,
        Section::ChaChaChunks,
        Section::ReducedChunks,
        Section::Primitives,
        Section::Planes,
        Section::ChaChaPrimitives,
        Section::ReducedPrimitives,
        Section::Hashes,
        Section::Subkeys,
    ];

    pub fn title(self) -> &'static str {
        match self {
            Section::Datagrams => "Whole datagrams",
            Section::Forgeries => "Forged datagrams",
            Section::ChaChaDatagrams => "With ChaCha20",
            Section::ReducedDatagrams => "With fewer rounds",
            Section::Sip004 => "Datagrams of 2017",
            Section::Bodies => "GCM bodies",
            Section::ChaChaBodies => "ChaCha bodies",
            Section::Chunks => "Stream chunks",
            Section::ChaChaChunks => "ChaCha20 chunks",
            Section::ReducedChunks => "Fewer-round chunks",
            Section::Primitives => "AES and GHASH",
            Section::Planes => "The same shape",
            Section::ChaChaPrimitives => "ChaCha20, Poly1305",
            Section::ReducedPrimitives => "ChaCha12, ChaCha8",
            Section::Hashes => "Hashes",
            Section::Subkeys => "Subkeys",
        }
    }

    pub fn others(self) -> Others {
        match self {
            Section::Datagrams
            | Section::Forgeries
            | Section::Sip004
            | Section::Bodies
            | Section::Chunks
            | Section::Primitives => Others::Aes,
            Section::ChaChaDatagrams
            | Section::ChaChaBodies
            | Section::ChaChaChunks
            | Section::ChaChaPrimitives => Others::ChaCha20,
            Section::Planes
            | Section::ReducedDatagrams
            | Section::ReducedChunks
            | Section::ReducedPrimitives
            | Section::Hashes
            | Section::Subkeys => Others::Plain,
        }
    }

    /// Whether its rows are whole datagrams.
    pub fn has_datagrams(self) -> bool {
        matches!(
            self,
            Section::Datagrams
                | Section::Forgeries
                | Section::ChaChaDatagrams
                | Section::ReducedDatagrams
                | Section::Sip004
        )
    }
}
