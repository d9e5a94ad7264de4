//! A carrier's host in small: `carrier JOURNAL`. The journal has the accepted calls, one
//! a line. It must exist; an empty one is that of a fresh register of 2000. At start its
//! calls are made again. Then calls come on standard input, and each is answered by a
//! line with number and amount (2 and 0 for what is no call):
//!
//!     open POINT KIND TOTAL RATE            guarantee USER AMOUNT
//!     annual USER POINT ARRIVAL AMOUNT      month USER POINT MONTH ARRIVAL AMOUNT
//!     day USER POINT DAY ARRIVAL AMOUNT     cession GIVER RECEIVER POINT ARRIVAL AMOUNT
//!     turn YEAR                             report POINT DAY

use std::fs::File;
use std::io::{self, BufRead, BufReader, Seek, SeekFrom, Write};
use std::{env, error::Error};

use ylgrandi::{Cession, PointKind, Product, Refusal, Register, Request};

fn number(text: &str) -> Option<u64> {
    let is_plain = text.bytes().all(|byte| byte.is_ascii_digit());
    text.parse().ok().filter(|_| is_plain)
}

/// A number as wide as its field. One that the field cannot hold makes the line no call.
fn fit<T: TryFrom<u64>>(number: u64) -> Option<T> {
    T::try_from(number).ok()
}

fn request(who: [u64; 2], product: Product, arrival: u64, amount: u64) -> Option<Request> {
    Some(Request {
        user: fit(who[0])?,
        point: fit(who[1])?,
        product,
        arrival: fit(arrival)?,
        amount,
    })
}

/// Makes the call of a whole line. `None` if the line is no call.
fn make_call(register: &mut Register, line: &[u8]) -> Option<Result<u32, Refusal>> {
    let line = str::from_utf8(line).ok()?.strip_suffix('\n')?;
    let (word, fields) = line.split_once(' ')?;
    let fields: Vec<u64> = fields.split(' ').map(number).collect::<Option<_>>()?;
    Some(match (word, &fields[..]) {
        ("open", &[point, kind @ 1..=2, total, rate]) => {
            let kind = [PointKind::Direct, PointKind::Thermoelectric][kind as usize - 1];
            let opened = register.open_point(fit(point)?, kind, total, fit(rate)?);
            opened.map(|()| 0)
        }
        ("guarantee", &[user, sum]) => register.place_guarantee(fit(user)?, sum).map(|()| 0),
        ("annual", &[user, point, arrival, amount]) => {
            register.request(request([user, point], Product::Annual, arrival, amount)?)
        }
        ("month", &[user, point, month, arrival, amount]) => {
            let product = Product::Month(fit(month)?);
            register.request(request([user, point], product, arrival, amount)?)
        }
        ("day", &[user, point, day, arrival, amount]) => {
            let product = Product::Day(fit(day)?);
            register.request(request([user, point], product, arrival, amount)?)
        }
        ("cession", &[giver, receiver, point, arrival, amount]) => register.cede(Cession {
            giver: fit(giver)?,
            receiver: fit(receiver)?,
            point: fit(point)?,
            arrival: fit(arrival)?,
            amount,
        }),
        ("turn", &[year]) => register.turn_year(fit(year)?).map(|()| 0),
        ("report", &[point, day]) => register.report(fit(point)?, fit(day)?),
        _ => return None,
    })
}

/// Makes the journal's calls again. A last line without its end was never answered and
/// is cut off.
fn replay(register: &mut Register, journal: &mut File) -> Result<(), Box<dyn Error>> {
    let (mut lines, mut line, mut whole) = (BufReader::new(&*journal), Vec::new(), 0);
    while lines.read_until(b'\n', &mut line)? > 0 && line.ends_with(b"\n") {
        if !matches!(make_call(register, &line), Some(Ok(_))) {
            return Err(format!("journal: no accepted call after byte {whole}").into());
        }
        whole += line.len() as u64;
        line.clear();
    }
    journal.set_len(whole)?;
    journal.seek(SeekFrom::Start(whole))?;
    Ok(())
}

fn serve(mut register: Register, mut journal: File) -> Result<(), Box<dyn Error>> {
    journal.try_lock()?;
    replay(&mut register, &mut journal)?;
    let (mut input, mut line) = (io::stdin().lock(), Vec::new());
    while input.read_until(b'\n', &mut line)? > 0 {
        let answer = make_call(&mut register, &line).unwrap_or_else(|| {
            eprintln!("carrier: no call: {:?}", String::from_utf8_lossy(&line));
            Err(Refusal::OutOfLimits)
        });
        // On disk before it is answered. What is refused, and a report, alters nothing: no
        // replay misses it.
        if answer.is_ok() && !line.starts_with(b"report") {
            journal.write_all(&line)?;
            journal.sync_data()?;
        }
        let number = answer.map_or_else(Refusal::number, |_| 0);
        writeln!(io::stdout(), "{number} {}", answer.unwrap_or(0))?;
        line.clear();
    }
    Ok(())
}

fn main() -> Result<(), Box<dyn Error>> {
    let path = env::args()
        .nth(1)
        .ok_or("one argument is needed, the journal")?;
    let journal = File::options().read(true).write(true).open(path)?;
    serve(Register::fresh(2000)?, journal)
}
