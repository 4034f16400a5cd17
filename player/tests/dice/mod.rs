//! Sessions that look random, the same each time: transactions that are often in each other's way.

/// Settled keys, put there by 16, and the named transactions begun.
pub fn settled(keys: &[&str], begun: impl Iterator<Item = u16>) -> String {
    let inserts = keys.iter().map(|key| format!("16 insert {key} record 1\n"));
    let begins = begun.map(|transaction| format!("{transaction} begin\n"));
    format!("16 begin\n{}16 commit\n{}", inserts.collect::<String>(), begins.collect::<String>())
}

/// Many sessions, of three to six transactions each.
pub fn sessions() -> impl Iterator<Item = Vec<String>> {
    (1..=400).map(|seed| Dice(seed << 32 | 0x9e37_79b9).session(3 + seed % 4))
}

/// Numbers that look random, the same for the same seed (xorshift by Marsaglia).
struct Dice(u64);

impl Dice {
    /// A number below a limit.
    fn below(&mut self, limit: u64) -> u64 {
        self.0 ^= self.0 << 13;
        self.0 ^= self.0 >> 7;
        self.0 ^= self.0 << 17;
        (self.0 >> 16) % limit
    }

    /// One of the settled keys.
    fn key(&mut self) -> u64 {
        10 * (1 + self.below(5))
    }

    /// What a transaction may ask at a key: an end is rare.
    fn asks(&mut self) -> String {
        let key = self.key();
        match self.below(12) {
            0 => "commit".to_string(),
            1 => "rollback".to_string(),
            2..=5 => format!("read {}..{key}", key - self.below(8)),
            6..=8 => format!("insert {} record 1", key - 5),
            _ => format!("delete {key}"),
        }
    }

    /// A session of some rounds, each from settled keys. It begins as the late circle of document
    /// 01 or with nothing, is played by transactions in any order, and has other requests strewn
    /// in.
    fn session(&mut self, transactions: u64) -> Vec<String> {
        let mut lines = Vec::new();
        for _ in 0..5 {
            let begun = settled(&["10", "20", "30", "40", "50"], 1..=transactions as u16);
            lines.extend(begun.lines().map(String::from));
            let (shift, late) = (self.below(transactions), self.below(3) > 0);
            let begins: &[(u64, &str)] = if late { &LATE_CIRCLE } else { &[] };
            for (role, asks) in begins {
                self.strew(&mut lines, transactions, 2);
                lines.push(format!("{} {asks}", 1 + (role + shift) % transactions));
            }
            self.strew(&mut lines, transactions, 20);
            lines.extend((1..=transactions).map(|transaction| format!("{transaction} rollback")));
        }
        lines
    }

    /// Adds fewer requests than a limit, of any transaction.
    fn strew(&mut self, lines: &mut Vec<String>, transactions: u64, limit: u64) {
        for _ in 0..self.below(limit) {
            lines.push(format!("{} {}", 1 + self.below(transactions), self.asks()));
        }
    }
}

/// The fourth case of document 01 with one more who waits behind 3: roles 1 to 3, and 0.
const LATE_CIRCLE: [(u64, &str); 7] = [
    (1, "delete 20"),
    (2, "read 50..50"),
    (3, "read 30..30"),
    (2, "insert 15 record 6"),
    (3, "delete 50"),
    (0, "read 50..50"),
    (1, "commit"),
];
