//! Makes a report of a country and a city, and writes it to standard output as one record of a stream:
//!     cargo run --example example Germany Berlin > reports.stream
use star_client::{Request, Version, record};
use std::io::{Read, Write};

fn main() -> Result<(), Box<dyn std::error::Error>> {
    let words: Vec<String> = std::env::args().skip(1).collect();
    let [country, city] = words.as_slice() else {
        return Err("usage: example COUNTRY CITY".into());
    };
    let mut seed = [0; 32];
    std::fs::File::open("/dev/urandom")?.read_exact(&mut seed)?;
    let values = [country.as_bytes(), city.as_bytes()];
    let request = Request { version: Version::One, values: &values, thresholds: &[20, 10], extra: b"", epoch: 1 };
    std::io::stdout().write_all(&record(&request, &seed, 0)?)?;
    Ok(())
}
