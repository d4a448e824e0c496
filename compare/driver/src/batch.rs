//! The records of a batch, as `ask` takes them: u32 key length, key, u64 value.

/// A record's bytes.
pub fn record(key: &[u8], value: u64) -> Vec<u8> {
    [
        &(key.len() as u32).to_le_bytes()[..],
        key,
        &value.to_le_bytes(),
    ]
    .concat()
}

/// The records of a batch that has nothing else.
pub fn records(mut bytes: &[u8]) -> Vec<(&[u8], u64)> {
    let mut records = Vec::new();
    while let Some((length, rest)) = bytes.split_first_chunk::<4>() {
        let (key, rest) = rest.split_at(u32::from_le_bytes(*length) as usize);
        let (value, rest) = rest.split_at(8);
        records.push((
            key,
            u64::from_le_bytes(value.try_into().expect("eight bytes")),
        ));
        bytes = rest;
    }
    records
}

/// The bytes of several records.
pub fn batch(records: &[(&[u8], u64)]) -> Vec<u8> {
    records
        .iter()
        .flat_map(|(key, value)| record(key, *value))
        .collect()
}

#[cfg(test)]
mod tests {
    use super::{batch, records};

    #[test]
    fn a_batch_is_its_records() {
        let all: [(&[u8], u64); 3] = [(b"a", 1), (b"", u64::MAX), (b"parcel", 2)];
        assert_eq!(records(&batch(&all)), all);
    }
}
