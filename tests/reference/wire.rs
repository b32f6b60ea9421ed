//! Requests and responses on the wire: numbers of 32 bits, the low byte first, and single bytes.

/// A named part of a response, compared before the next one is awaited: what follows depends on it.
pub struct Part {
    pub name: String,
    /// So many bytes stand for one number.
    pub width: usize,
    pub bytes: Vec<u8>,
}

impl Part {
    pub fn numbers(name: &str, numbers: &[u32]) -> Part {
        Part {
            name: name.to_string(),
            width: 4,
            bytes: number_bytes(numbers),
        }
    }

    pub fn bytes(name: &str, bytes: Vec<u8>) -> Part {
        Part {
            name: name.to_string(),
            width: 1,
            bytes,
        }
    }

    /// Tells the first number that is another; as many bytes were received as the part has.
    pub fn difference(&self, received: &[u8]) -> Option<String> {
        // Nearly always, and quicker than number by number.
        if received == self.bytes {
            return None;
        }
        let pairs = received
            .chunks(self.width)
            .zip(self.bytes.chunks(self.width));
        let (place, (got, expected)) = pairs.enumerate().find(|(_, (got, own))| got != own)?;
        Some(format!(
            "{}, number {place}, is {} but should be {}",
            self.name,
            number(got),
            number(expected)
        ))
    }
}

pub fn number_bytes(numbers: &[u32]) -> Vec<u8> {
    let mut bytes = Vec::with_capacity(4 * numbers.len());
    for number in numbers {
        bytes.extend_from_slice(&number.to_le_bytes());
    }
    bytes
}

fn number(bytes: &[u8]) -> u32 {
    bytes
        .iter()
        .rev()
        .fold(0, |high, &byte| 256 * high + u32::from(byte))
}

#[cfg(test)]
mod tests {
    use super::*;

    #[test]
    fn the_first_difference_is_told() {
        let part = Part::numbers("row", &[1, 2, 70_000]);
        assert_eq!(part.difference(&number_bytes(&[1, 2, 70_000])), None);
        let told = "row, number 2, is 4464 but should be 70000";
        assert_eq!(
            part.difference(&number_bytes(&[1, 2, 4464])).as_deref(),
            Some(told)
        );
        let part = Part::bytes("buffer", vec![3, 4]);
        let told = "buffer, number 1, is 255 but should be 4";
        assert_eq!(part.difference(&[3, 255]).as_deref(), Some(told));
    }
}
