// Makes the report of each line of standard input through the crate in bindings/rust, as lines.c does.
use star_client::{Request, Version, record, report};
use std::io::BufRead;

fn bytes_of(hex: &str) -> Vec<u8> {
    (0..hex.len() / 2).map(|i| u8::from_str_radix(&hex[2 * i..2 * i + 2], 16).unwrap()).collect()
}

fn list(word: &str) -> Vec<&str> {
    if word == "-" { Vec::new() } else { word.split(',').collect() }
}

fn main() {
    for line in std::io::stdin().lock().lines().map(Result::unwrap) {
        let words: Vec<&str> = line.split(' ').collect();
        let values: Vec<Vec<u8>> = list(words[5]).into_iter().map(bytes_of).collect();
        let values: Vec<&[u8]> = values.iter().map(Vec::as_slice).collect();
        let thresholds: Vec<u16> = list(words[4]).iter().map(|k| k.parse().unwrap()).collect();
        let extra = if words[6] == "-" { Vec::new() } else { bytes_of(words[6]) };
        let request = Request {
            version: if words[0] == "2" { Version::Two } else { Version::One },
            values: &values,
            thresholds: &thresholds,
            extra: &extra,
            epoch: words[1].parse().unwrap(),
        };
        let seed = bytes_of(words[3]).try_into().unwrap();
        let client = words[2].parse().unwrap();
        match (report(&request, &seed, client), record(&request, &seed, client)) {
            (Ok(report), Ok(record)) if record[..4] == (report.len() as u32).to_be_bytes() && record[4..] == report[..] => {
                println!("{}", report.iter().map(|b| format!("{b:02x}")).collect::<String>())
            }
            (Err(fault), Err(other)) if fault == other => println!("status {}", fault.status()),
            other => println!("{other:?}"),
        }
    }
}
