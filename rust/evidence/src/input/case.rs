//! One input of a loader, which can be printed, kept in a file and run again.

use std::fmt;
use std::ops::Range;
use std::str::FromStr;

/// Everything lent to a loader. The window's bytes are those before the load.
#[derive(Clone, Debug, Default, PartialEq, Eq)]
pub struct Case {
    pub name: String,
    pub submission: Vec<u8>,
    pub operator: Vec<u8>,
    pub map: Vec<u8>,
    pub window: Vec<u8>,
    pub first: u32,
}

impl Case {
    /// The addresses for which the window stands.
    pub fn addresses(&self) -> Range<u64> {
        let first = u64::from(self.first);
        first..first + self.window.len() as u64
    }
}

impl fmt::Display for Case {
    /// One line for each part, in the form that `from_str` reads.
    fn fmt(&self, f: &mut fmt::Formatter) -> fmt::Result {
        writeln!(f, "name {}", self.name)?;
        writeln!(f, "first {:08X}", self.first)?;
        writeln!(f, "submission {}", hex(&self.submission))?;
        writeln!(f, "operator {}", hex(&self.operator))?;
        writeln!(f, "map {}", hex(&self.map))?;
        writeln!(f, "window {}", hex(&self.window))
    }
}

impl FromStr for Case {
    type Err = String;

    fn from_str(text: &str) -> Result<Self, String> {
        let mut case = Case::default();
        for line in text.lines() {
            let (part, value) = line.split_once(' ').ok_or("a line without a value")?;
            match part {
                "name" => case.name = value.to_string(),
                "first" => case.first = number(value)?,
                "submission" => case.submission = unhex(value)?,
                "operator" => case.operator = unhex(value)?,
                "map" => case.map = unhex(value)?,
                "window" => case.window = unhex(value)?,
                _ => return Err(format!("unknown part {part}")),
            }
        }
        Ok(case)
    }
}

fn number(text: &str) -> Result<u32, String> {
    u32::from_str_radix(text, 16).map_err(|e| e.to_string())
}

/// Bytes as upper-case digits without blanks.
fn hex(bytes: &[u8]) -> String {
    bytes.iter().map(|byte| format!("{byte:02X}")).collect()
}

/// The bytes of hexadecimal digits; blanks between them are passed over.
pub fn unhex(text: &str) -> Result<Vec<u8>, String> {
    let digits: Vec<u32> = text
        .chars()
        .filter(|c| !c.is_whitespace())
        .map(|c| c.to_digit(16).ok_or(format!("{c} is no hexadecimal digit")))
        .collect::<Result<_, _>>()?;
    if digits.len() % 2 != 0 {
        return Err("an odd count of hexadecimal digits".to_string());
    }
    Ok(digits.chunks(2).map(|d| (16 * d[0] + d[1]) as u8).collect())
}
