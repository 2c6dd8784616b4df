//! A reader of wave sheets, written from the paper alone, and in another way than the proved one: it cuts out each run whole, and judges it as text.

/// The most bytes that a sheet can have.
pub const LIMIT: usize = 32768;

#[derive(Clone, Debug, Default, PartialEq)]
pub struct Sheet {
    pub destinations: Vec<(u32, i32, i32)>,
    pub closings: Vec<(u8, u32, i32)>,
    pub lists: Vec<Vec<u32>>,
}

struct Reader<'a> {
    text: &'a [u8],
    at: usize,
    /// A fault made on purpose: `-0` is taken for 0.
    fault: bool,
}

type Read<T> = Result<T, usize>;

impl Reader<'_> {
    /// A run of digits and minus signs that writes a number from `low` to `high`.
    fn number(&mut self, low: i64, high: i64) -> Read<i64> {
        let start = self.at;
        let long = self.text[start..].iter().take_while(|b| b.is_ascii_digit() || **b == b'-').count();
        let run = std::str::from_utf8(&self.text[start..start + long]).unwrap();
        let digits = run.strip_prefix('-').unwrap_or(run);
        let plain = !digits.is_empty() && !digits.contains('-');
        let zero = run == "0" || self.fault && run == "-0";
        if !plain || (digits.starts_with('0') && !zero) {
            return Err(start);
        }
        match run.parse::<i64>() {
            Ok(n) if low <= n && n <= high => {
                self.at += long;
                Ok(n)
            }
            _ => Err(start),
        }
    }

    fn byte(&mut self, wanted: u8) -> Read<()> {
        if self.text.get(self.at) != Some(&wanted) {
            return Err(self.at);
        }
        self.at += 1;
        Ok(())
    }

    fn field(&mut self, low: i64, high: i64, after: u8) -> Read<i64> {
        let n = self.number(low, high)?;
        self.byte(after)?;
        Ok(n)
    }

    fn id(&mut self, after: u8) -> Read<u32> {
        Ok(self.field(0, u32::MAX as i64, after)? as u32)
    }

    fn chute(&mut self, after: u8) -> Read<i32> {
        Ok(self.field(i32::MIN as i64, i32::MAX as i64, after)? as i32)
    }

    fn sheet(&mut self) -> Read<Sheet> {
        let mut sheet = Sheet::default();
        for _ in 0..self.field(0, 64, b'\n')? {
            sheet.destinations.push((self.id(b' ')?, self.chute(b' ')?, self.chute(b'\n')?));
        }
        for _ in 0..self.field(0, 256, b'\n')? {
            sheet.closings.push((self.field(1, 4, b' ')? as u8, self.id(b' ')?, self.chute(b'\n')?));
        }
        for _ in 0..self.field(0, 16, b'\n')? {
            let many = self.number(0, 64)?;
            let mut list = Vec::new();
            for _ in 0..many {
                self.byte(b' ')?;
                list.push(self.number(0, u32::MAX as i64)? as u32);
            }
            self.byte(b'\n')?;
            sheet.lists.push(list);
        }
        if self.at < self.text.len() {
            return Err(self.at);
        }
        Ok(sheet)
    }
}

/// What the sheet says, or the place where it is wrong.
pub fn read(text: &[u8], fault: bool) -> Read<Sheet> {
    if text.len() > LIMIT {
        return Err(LIMIT);
    }
    Reader { text, at: 0, fault }.sheet()
}
