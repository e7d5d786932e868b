//! Answers questions, each a line of the standard input, by lines that `bindings/compare.py` compares with those of the
//! program and of the other bindings. That file says which questions there are, and how they are answered.

use clubcard::{check_part, place, By, Query, Refused, Sighting, Store, Verdict};
use std::error::Error;
use std::fs;
use std::io;

type Answer = Result<String, Box<dyn Error>>;

/// The bytes that a word spells in hexadecimal; `-` spells none.
fn octets_of(word: &str) -> Result<Vec<u8>, Box<dyn Error>> {
    let digits = word.trim_matches('-');
    let pair = |at| u8::from_str_radix(&digits[at..at + 2], 16);
    Ok((0..digits.len()).step_by(2).map(pair).collect::<Result<_, _>>()?)
}

fn key_of(word: &str) -> Result<[u8; 32], Box<dyn Error>> {
    octets_of(word)?.try_into().map_err(|_| "a key has 32 bytes".into())
}

/// A query of its own words.
struct Asked {
    issuer: [u8; 32],
    serial: Vec<u8>,
    sightings: Vec<Sighting>,
}

/// ISSUER SERIAL [LOG TIME ..]
fn asked_by(words: &[&str]) -> Result<Asked, Box<dyn Error>> {
    let sighting = |pair: &[&str]| -> Result<Sighting, Box<dyn Error>> {
        Ok(Sighting { log: key_of(pair[0])?, time: pair[1].parse()? })
    };
    let sightings = words[2..].chunks(2).map(sighting).collect::<Result<_, _>>()?;
    Ok(Asked { issuer: key_of(words[0])?, serial: octets_of(words[1])?, sightings })
}

fn number_of(answer: Result<Verdict, Refused>) -> String {
    match answer {
        Ok(verdict) => (verdict as u32).to_string(),
        Err(refused) => refused.refusal.number().to_string(),
    }
}

fn refusal(refused: &Refused) -> String {
    format!("{} {} {}", refused.refusal.number(), refused.at, refused.field.unwrap_or("-"))
}

fn answer_each(store: &Store<'_>, words: &[&str]) -> Answer {
    let asked = words.split(|word| *word == "|").map(asked_by).collect::<Result<Vec<_>, _>>()?;
    let queries: Vec<Query<'_>> = asked
        .iter()
        .map(|each| Query { issuer: each.issuer, serial: &each.serial, sightings: &each.sightings })
        .collect();
    Ok(store.ask_each(&queries).into_iter().map(number_of).collect::<Vec<_>>().join(" "))
}

fn answer_place(by: &str, issuer: &str, serial: &str, count: &str) -> Answer {
    let by = if by == "issuer" { By::Issuer } else { By::Identity };
    Ok(match place(by, &key_of(issuer)?, &octets_of(serial)?, count.parse()?) {
        Ok(place) => format!("0 {place}"),
        Err(refused) => format!("{} 0", refused.refusal.number()),
    })
}

fn answer_part(name: &str) -> Answer {
    Ok(match check_part(&fs::read(name)?) {
        Ok(part) => {
            let trailer: String = part.trailer.iter().map(|byte| format!("{byte:02x}")).collect();
            format!("0 {} {} {} {} {trailer}", u8::from(part.is_delta), part.epoch, part.ranges, part.issuers)
        }
        Err(refused) => refusal(&refused),
    })
}

fn answer_install(store: &Store<'_>, part: &str, name: &str) -> Answer {
    Ok(match store.install(&fs::read(part)?) {
        Ok(made) => {
            fs::write(name, &made)?;
            format!("0 {}", made.len())
        }
        Err(refused) => refusal(&refused),
    })
}

/// The answer to a question of an opened store.
fn answer(store: &Store<'_>, words: &[&str]) -> Answer {
    match words {
        ["ask", words @ ..] => {
            let asked = asked_by(words)?;
            Ok(number_of(store.ask(&asked.issuer, &asked.serial, &asked.sightings)))
        }
        ["each", words @ ..] => answer_each(store, words),
        ["cert", cert, issuer_cert] => Ok(number_of(store.ask_cert(&fs::read(cert)?, &fs::read(issuer_cert)?))),
        ["until", log] => {
            Ok(store.covered_until(&key_of(log)?).map_or("1 0".to_string(), |until| format!("0 {until}")))
        }
        ["place", by, issuer, serial, count] => answer_place(by, issuer, serial, count),
        ["part", name] => answer_part(name),
        ["install", part, name] => answer_install(store, part, name),
        _ => Err(format!("this is no question: {words:?}").into()),
    }
}

fn main() -> Result<(), Box<dyn Error>> {
    let lines = io::stdin().lines().collect::<Result<Vec<_>, _>>()?;
    let mut lines = lines.iter().map(|line| line.split(' ').collect::<Vec<_>>()).peekable();
    while let Some(words) = lines.next() {
        let name = match words[..] {
            ["store", name] => name,
            _ => return Err("the first question names a store".into()),
        };
        let bytes = fs::read(name)?;
        let store = match Store::open(&bytes) {
            Ok(store) => store,
            Err(refused) => {
                println!("{}", refusal(&refused));
                continue;
            }
        };
        println!("0 {} {}", store.facts().parts, store.facts().newest_epoch);
        while let Some(words) = lines.next_if(|words| words[0] != "store") {
            println!("{}", answer(&store, &words)?);
        }
    }
    Ok(())
}
