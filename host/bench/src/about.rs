//! What a run was made on and with.

use std::fs;

use crate::bearssl;
use crate::nettle;
use crate::numbers::grouped;

/// As the table and the plot name it.
pub struct About {
    pub cpu: String,
    /// OpenSSL's version.
    pub openssl: String,
    /// The processor instructions of each OpenSSL, in its notation.
    pub with: String,
    pub without: String,
    /// nettle's version.
    pub nettle: String,
    /// libgcrypt's and mbedTLS's versions.
    pub gcrypt: String,
    pub mbedtls: String,
    /// libsodium's version, and the processor instructions that it found.
    pub sodium: String,
    pub sodium_with: String,
    /// How many cases were compared.
    pub compared: usize,
    /// Rounds, and the batches in each.
    pub rounds: usize,
    pub batches: usize,
}

/// Whom ours is measured against.
const AGAINST: &str = "\
Against  OpenSSL, nettle, BearSSL, libgcrypt and mbedTLS alone for GCM bodies, chunks, AES, and GHASH: BearSSL has it alone, the others as the tag of
         additional data, which is one AES block more
         with plain Rust around them for whole datagrams: headers, addresses, subkey (BLAKE3), sessions and windows
         with their own HKDF and SHA-1 for datagrams of 2017
         OpenSSL, nettle, BearSSL and libsodium for ChaCha20 and Poly1305, which nettle has with one AES block more; the subkey of a long nonce
         (HChaCha20) is libsodium's own, and plain Rust's for the others
         plain Rust for ChaCha12 and ChaCha8, which no library has, for BLAKE3 and for subkeys; the key of their context is
         computed before the calls";

const CALLS: &str = "         buffers are warm; keys are expanded and subkeys derived at each call";

const RATIO: &str = "\
Ratio    of speeds in the same round to the best other's, median (quartiles): above 1 ours is the faster";

impl About {
    /// The lines above the table.
    pub fn lines(&self) -> Vec<String> {
        let mut lines = vec![format!("CPU      {}; one thread", self.cpu)];
        lines.extend(self.libraries());
        lines.extend([
            AGAINST.to_string(),
            format!(
                "Outputs  compared byte for byte in {} cases before all else: equal",
                self.compared
            ),
            format!(
                "Speed    MB/s ({} bytes) of the fastest of {} batches of calls in a round; median of {} interleaved rounds \
                 (quartiles of ours)",
                grouped(1_000_000),
                self.batches,
                self.rounds
            ),
            CALLS.to_string(),
            RATIO.to_string(),
        ]);
        lines
    }

    /// Which ones they are, and with which processor instructions.
    fn libraries(&self) -> Vec<String> {
        let Self { with, without, .. } = self;
        vec![
            format!("OpenSSL  {}", self.openssl),
            format!("         with processor instructions:    {with}"),
            format!("         without processor instructions: {without}"),
            format!(
                "nettle   {}; without processor instructions: {}={}",
                self.nettle,
                nettle::CAPABILITIES,
                nettle::NO_CAPABILITIES
            ),
            format!(
                "BearSSL  {}; without processor instructions: {}",
                bearssl::WITH,
                bearssl::WITHOUT
            ),
            format!(
                "         ChaCha20 without any that not every such processor has: {}",
                bearssl::CHACHA
            ),
            format!(
                "gcrypt   {}; without processor instructions: its hardware features are off",
                self.gcrypt
            ),
            format!(
                "mbedTLS  {}; with processor instructions as it finds them, it has no switch",
                self.mbedtls
            ),
            format!(
                "sodium   {}; with processor instructions as it finds them, it has no switch: {}",
                self.sodium, self.sodium_with
            ),
        ]
    }

    /// OpenSSL's version without the day of its release, which is not the run's.
    pub fn openssl_number(&self) -> &str {
        let mut spaces = self.openssl.match_indices(' ');
        spaces
            .nth(1)
            .map_or(&self.openssl, |(end, _)| &self.openssl[..end])
    }
}

/// The processor's name, where the system tells it.
pub fn cpu_model() -> String {
    let info = fs::read_to_string("/proc/cpuinfo").unwrap_or_default();
    info.lines()
        .find_map(|line| line.strip_prefix("model name")?.split_once(':'))
        .map_or_else(
            || "unknown".to_string(),
            |(_, model)| model.trim().to_string(),
        )
}

#[cfg(test)]
mod tests {
    use crate::samples;

    #[test]
    fn a_version_without_its_day() {
        let mut about = samples::about();
        assert_eq!(about.openssl_number(), "OpenSSL 0.0.0");
        about.openssl = "OpenSSL 3.0.1".to_string();
        assert_eq!(about.openssl_number(), "OpenSSL 3.0.1");
    }
}
