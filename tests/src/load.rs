//! A market of the full size: 1,000 days with 256 trades, both sessions, 8 series and 64 accounts, and no refused row. Its
//! rows name no sections, so that what an account has is in its section 0.

use std::io::{self, Write};

use crate::book::{net, Book, Category, ACCOUNTS, LAST_DAY, POSITION_LIMIT, QUANTITY, SERIES, TRADES_A_DAY};
use crate::calendar::Calendar;
use crate::random::Random;
use crate::rows;

/// Requests for exercise a day.
const REQUESTS: usize = 6;

/// Writes the market's rows, about 280,000.
pub fn write(output: impl Write) -> io::Result<()> {
    let mut load = Load { output, random: Random::new(1), book: Book::new(), price: [15_000; SERIES] };
    // Calls and puts, American and European, with strikes around the futures price; the last of them expires on day 999.
    for (number, kind) in ["CA", "PA", "CE", "PE", "CA", "PA", "CE", "PE"].iter().enumerate() {
        let strike = 16_600 + 100 * number;
        let last_day = LAST_DAY as usize + 1 - SERIES + number;
        load.row(&format!("L,GAZR-3.23M150323{kind}{strike},100,{last_day}"))?;
    }
    for _ in 0..=LAST_DAY {
        load.day()?;
    }
    load.output.flush()
}

struct Load<W> {
    output: W,
    random: Random,
    book: Book,
    price: [u64; SERIES],
}

impl<W: Write> Load<W> {
    fn day(&mut self) -> io::Result<()> {
        self.trades(TRADES_A_DAY / 2)?;
        self.session("I")?;
        self.trades(TRADES_A_DAY / 2)?;
        self.requests()?;
        self.session("V")
    }

    fn trades(&mut self, count: usize) -> io::Result<()> {
        let live = self.live();
        for _ in 0..count {
            let number = self.random.pick(&live);
            let buyer = self.random.below(ACCOUNTS as u64) as usize;
            let seller = (buyer + self.random.between(1, ACCOUNTS as u64 - 1) as usize) % ACCOUNTS;
            let quantity = self.random.between(*QUANTITY.start(), *QUANTITY.end());
            // Whoever holds much sells.
            let positions = &self.book.series[number].positions;
            let room = net(&positions[buyer]) + (quantity as i64) < POSITION_LIMIT
                && net(&positions[seller]) - (quantity as i64) > -POSITION_LIMIT;
            let (buyer, seller) = if room { (buyer, seller) } else { (seller, buyer) };
            let price = self.price[number] / 100 * 100 + 100 * self.random.below(10);
            self.row(&format!("T,{number},{buyer},{seller},{quantity},{price}"))?;
        }
        Ok(())
    }

    fn requests(&mut self) -> io::Result<()> {
        let mut left = REQUESTS;
        while left > 0 {
            let number = self.random.pick(&self.live());
            let account = self.random.below(ACCOUNTS as u64) as usize;
            let series = &self.book.series[number];
            let held = net(&series.positions[account]).max(0) as u64;
            if series.category == Category::American || series.last_day == self.book.day {
                let quantity = self.random.between(0, held.min(100));
                self.row(&format!("X,{number},{account},{quantity}"))?;
                left -= 1;
            } else if self.live().iter().all(|&number| self.book.series[number].category == Category::European) {
                // On the last days European series alone are live, and theirs is another day.
                left = 0;
            }
        }
        Ok(())
    }

    fn session(&mut self, letter: &str) -> io::Result<()> {
        for number in self.live() {
            let option = (self.price[number] + self.random.below(401)).saturating_sub(200).clamp(1_000, 900_000);
            self.price[number] = option;
            let futures = self.random.between(1_650_000, 1_750_000);
            let tick_value = self.random.between(90_000, 110_000);
            self.row(&format!("M,{number},{option},{futures},{tick_value}"))?;
        }
        self.row(letter)
    }

    fn live(&self) -> Vec<usize> {
        (0..SERIES).filter(|&number| self.book.day <= self.book.series[number].last_day).collect()
    }

    fn row(&mut self, row: &str) -> io::Result<()> {
        let answer = rows::read(row.as_bytes(), &Calendar::default()).and_then(|event| self.book.apply(event));
        assert!(answer.is_ok(), "{row}: {answer:?}");
        self.output.write_all(row.as_bytes())?;
        self.output.write_all(b"\r\n")
    }
}
