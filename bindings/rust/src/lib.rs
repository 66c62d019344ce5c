//! The client of Nested STAR: one report of one client, by the proved static library.
//!
//! One seed and client number make one report, ever: draw the seed afresh for each report, from the
//! system's source of random bytes. docs/CLIENTS.md of the repository says what else a client must ensure.
//!
//! ```
//! use star_client::{Request, Version, record};
//! use std::io::Read;
//!
//! let mut seed = [0; 32];
//! std::fs::File::open("/dev/urandom")?.read_exact(&mut seed)?;
//! let request = Request { version: Version::One, values: &[b"Germany", b"Berlin"], thresholds: &[20, 10], extra: b"", epoch: 1 };
//! let bytes = record(&request, &seed, 0)?;
//! assert_eq!(bytes.len(), 293);
//! # Ok::<(), Box<dyn std::error::Error>>(())
//! ```

use std::fmt;

/// The bytes of a seed.
pub const SEED_BYTES: usize = 32;

/// The most bytes of a value; it has one at least.
pub const MAX_VALUE: usize = 64;

/// The most extra bytes of a report of version 2; one of version 1 has none.
pub const MAX_EXTRA: usize = 255;

/// The most bytes of a report; in version 1 it has at most 1616.
pub const MAX_REPORT: usize = 3487;

/// The most bytes of a record.
pub const MAX_RECORD: usize = 4 + MAX_REPORT;

unsafe extern "C" {
    fn star_client_report(
        version: u32,
        cells: *const u8,
        cells_length: usize,
        thresholds: *const u16,
        thresholds_length: usize,
        extra: *const u8,
        extra_length: usize,
        epoch: u32,
        seed: *const u8,
        seed_length: usize,
        client: u32,
        out: *mut u8,
        out_length: usize,
        written: *mut usize,
    ) -> u32;

    fn star_client_length(
        version: u32,
        cells: *const u8,
        cells_length: usize,
        thresholds: *const u16,
        thresholds_length: usize,
        extra: *const u8,
        extra_length: usize,
        written: *mut usize,
    ) -> u32;
}

/// The version of a report.
#[derive(Clone, Copy, Debug, PartialEq, Eq)]
pub enum Version {
    /// 1 to 8 layers, thresholds from 2 to 512.
    One,
    /// 1 to 16 layers, thresholds from 2 to 4096, and up to 255 extra bytes.
    Two,
}

impl Version {
    /// Its number in a report.
    pub const fn number(self) -> u32 {
        match self {
            Version::One => 1,
            Version::Two => 2,
        }
    }

    /// The most layers of a report; it has one at least.
    pub const fn max_layers(self) -> usize {
        match self {
            Version::One => 8,
            Version::Two => 16,
        }
    }

    /// The greatest threshold; the least is 2.
    pub const fn max_threshold(self) -> u16 {
        match self {
            Version::One => 512,
            Version::Two => 4096,
        }
    }

    /// The most extra bytes.
    pub const fn max_extra(self) -> usize {
        match self {
            Version::One => 0,
            Version::Two => MAX_EXTRA,
        }
    }
}

/// What is wrong with a request: the argument, and what of it is beyond its limit.
#[derive(Clone, Copy, Debug, PartialEq, Eq)]
#[non_exhaustive]
pub enum Fault {
    /// There is no threshold, or there are more than the version has layers.
    Layers { version: Version, thresholds: usize },
    /// The threshold at the index is out of the version's range.
    Threshold { version: Version, index: usize, threshold: u16 },
    /// There is not one value for each threshold.
    Values { values: usize, thresholds: usize },
    /// The value at the index has no byte, or more than 64.
    Value { index: usize, bytes: usize },
    /// There are more extra bytes than the version has.
    Extra { version: Version, bytes: usize },
}

impl Fault {
    /// Its status in `star_client.h`.
    pub const fn status(&self) -> u32 {
        match self {
            Fault::Layers { .. } | Fault::Threshold { .. } => 2,
            Fault::Values { .. } | Fault::Value { .. } => 3,
            Fault::Extra { .. } => 4,
        }
    }
}

impl fmt::Display for Fault {
    fn fmt(&self, f: &mut fmt::Formatter<'_>) -> fmt::Result {
        match *self {
            Fault::Layers { version, thresholds } => {
                write!(f, "thresholds has {thresholds} numbers; version {} has 1 to {}", version.number(), version.max_layers())
            }
            Fault::Threshold { version, index, threshold } => {
                let (number, most) = (version.number(), version.max_threshold());
                write!(f, "thresholds[{index}] is {threshold}; in version {number} it is from 2 to {most}")
            }
            Fault::Values { values, thresholds } => {
                write!(f, "values has {values} items; thresholds has {thresholds}, and each needs one")
            }
            Fault::Value { index, bytes } => write!(f, "values[{index}] has {bytes} bytes; a value has 1 to {MAX_VALUE}"),
            Fault::Extra { version: Version::One, bytes } => write!(f, "extra has {bytes} bytes; version 1 has none"),
            Fault::Extra { version: Version::Two, bytes } => {
                write!(f, "extra has {bytes} bytes; version 2 has at most {MAX_EXTRA}")
            }
        }
    }
}

impl std::error::Error for Fault {}

/// What a report says, and in which epoch.
#[derive(Clone, Copy, Debug)]
pub struct Request<'a> {
    pub version: Version,
    /// One for each threshold, of 1 to 64 bytes.
    pub values: &'a [&'a [u8]],
    /// From how many reports on the aggregator may learn each value: 1 to 8 numbers from 2 to 512,
    /// in version 2 1 to 16 numbers from 2 to 4096.
    pub thresholds: &'a [u16],
    /// What the aggregator learns if it learns the last value: up to 255 bytes in version 2, none
    /// in version 1.
    pub extra: &'a [u8],
    /// Only reports of one epoch are counted together.
    pub epoch: u32,
}

impl Request<'_> {
    /// The first fault, in the order of `star_client.h`.
    fn fault(&self) -> Option<Fault> {
        let version = self.version;
        let (values, thresholds, bytes) = (self.values.len(), self.thresholds.len(), self.extra.len());
        if thresholds == 0 || thresholds > version.max_layers() {
            return Some(Fault::Layers { version, thresholds });
        }
        let in_range = 2..=version.max_threshold();
        if let Some(index) = self.thresholds.iter().position(|k| !in_range.contains(k)) {
            return Some(Fault::Threshold { version, index, threshold: self.thresholds[index] });
        }
        if values != thresholds {
            return Some(Fault::Values { values, thresholds });
        }
        if let Some(index) = self.values.iter().position(|value| !(1..=MAX_VALUE).contains(&value.len())) {
            return Some(Fault::Value { index, bytes: self.values[index].len() });
        }
        (bytes > version.max_extra()).then_some(Fault::Extra { version, bytes })
    }

    // For each value one byte with its length, and then its bytes.
    fn cells(&self) -> Result<Vec<u8>, Fault> {
        match self.fault() {
            Some(fault) => Err(fault),
            None => Ok(self.values.iter().flat_map(|value| [&[value.len() as u8], *value].concat()).collect()),
        }
    }
}

/// The report after its length, as it is in a stream: concatenated records are a stream. Never use
/// the seed and the client number again.
pub fn record(request: &Request, seed: &[u8; SEED_BYTES], client: u32) -> Result<Vec<u8>, Fault> {
    let mut record = vec![0; 4 + length(request)?];
    let written = write(request, seed, client, &mut record[4..])?;
    record[..4].copy_from_slice(&(written as u32).to_be_bytes());
    Ok(record)
}

/// The bytes of the report alone. Never use the seed and the client number again.
pub fn report(request: &Request, seed: &[u8; SEED_BYTES], client: u32) -> Result<Vec<u8>, Fault> {
    let mut report = vec![0; length(request)?];
    write(request, seed, client, &mut report)?;
    Ok(report)
}

/// How many bytes that report has; its record has four more.
pub fn length(request: &Request) -> Result<usize, Fault> {
    let cells = request.cells()?;
    let mut written = 0;
    // SAFETY: each pointer and length are those of one slice that is borrowed for the call, and
    // `written` overlaps nothing.
    let status = unsafe {
        star_client_length(
            request.version.number(),
            cells.as_ptr(),
            cells.len(),
            request.thresholds.as_ptr(),
            request.thresholds.len(),
            request.extra.as_ptr(),
            request.extra.len(),
            &mut written,
        )
    };
    done(status);
    Ok(written)
}

// Writes the report into a buffer of its length, and returns how long it is.
fn write(request: &Request, seed: &[u8; SEED_BYTES], client: u32, out: &mut [u8]) -> Result<usize, Fault> {
    let cells = request.cells()?;
    let mut written = 0;
    // SAFETY: as above; `out` overlaps nothing either.
    let status = unsafe {
        star_client_report(
            request.version.number(),
            cells.as_ptr(),
            cells.len(),
            request.thresholds.as_ptr(),
            request.thresholds.len(),
            request.extra.as_ptr(),
            request.extra.len(),
            request.epoch,
            seed.as_ptr(),
            seed.len(),
            client,
            out.as_mut_ptr(),
            out.len(),
            &mut written,
        )
    };
    done(status);
    Ok(written)
}

// The arguments were checked before, so no other status is possible.
fn done(status: u32) {
    assert_eq!(status, 0, "the status of a good request");
}

#[cfg(test)]
mod tests {
    use super::*;

    fn request<'a>(version: Version, values: &'a [&'a [u8]], thresholds: &'a [u16], extra: &'a [u8]) -> Request<'a> {
        Request { version, values, thresholds, extra, epoch: 1 }
    }

    // The report of the value `red` with the extra bytes `abc`, byte for byte.
    #[test]
    fn every_byte_of_a_report() {
        let asked = request(Version::Two, &[b"red"], &[2], b"abc");
        let made = report(&asked, &[0; 32], 0).unwrap();
        let text: String = made.iter().map(|b| format!("{b:02x}")).collect();
        assert_eq!(
            text,
            concat!(
                "5354020000000001000206b8e0ada0f13d91168feac4687bf6690fabbd6ce8b47a720534688d0355aef7464e2287",
                "d20d26770edee57742ee5c68dbe4ec28691f79c30bca797259d38c93c3608643a3a909b14d30c09063f4871303d0",
                "7d4d405d6ae55386bd28bdd219b80004a6356271d23d641db8c7f2d793eddc53cba44fbf738ef270d5a479d4b19d",
                "4a6de87abea3",
            )
        );
        assert_eq!(length(&asked), Ok(144));
        assert_eq!(record(&asked, &[0; 32], 0).unwrap(), [&[0, 0, 0, 144], made.as_slice()].concat());
    }

    #[test]
    fn faults_name_argument_and_limit() {
        let text = |r: Request| record(&r, &[0; 32], 0).unwrap_err().to_string();
        assert_eq!(text(request(Version::One, &[], &[], b"")), "thresholds has 0 numbers; version 1 has 1 to 8");
        assert_eq!(text(request(Version::One, &[b"a"], &[513], b"")), "thresholds[0] is 513; in version 1 it is from 2 to 512");
        assert_eq!(text(request(Version::Two, &[b"a"], &[2, 2], b"")), "values has 1 items; thresholds has 2, and each needs one");
        assert_eq!(text(request(Version::Two, &[b""], &[2], b"")), "values[0] has 0 bytes; a value has 1 to 64");
        assert_eq!(text(request(Version::Two, &[&[1; 65]], &[2], b"")), "values[0] has 65 bytes; a value has 1 to 64");
        assert_eq!(text(request(Version::One, &[b"a"], &[2], b"x")), "extra has 1 bytes; version 1 has none");
        assert_eq!(text(request(Version::Two, &[b"a"], &[2], &[0; 256])), "extra has 256 bytes; version 2 has at most 255");
    }
}
