//! Random calls on the map and on `BTreeMap`.

use art_map::{ArtMap, Error};
use std::collections::BTreeMap;
use std::ops::Bound;

struct Chance(u64);

impl Chance {
    fn next(&mut self, below: u64) -> u64 {
        self.0 ^= self.0 << 13;
        self.0 ^= self.0 >> 7;
        self.0 ^= self.0 << 17;
        self.0 % below
    }

    fn key(&mut self) -> Vec<u8> {
        (0..self.next(7)).map(|_| b"abc\0\xff"[self.next(5) as usize]).collect()
    }
}

fn conflicts(model: &BTreeMap<Vec<u8>, u64>, key: &[u8]) -> bool {
    let next = model.range(key.to_vec()..).next();
    !model.contains_key(key)
        && (next.is_some_and(|(k, _)| k.starts_with(key))
            || (0..key.len()).any(|n| model.contains_key(&key[..n])))
}

fn all(model: &BTreeMap<Vec<u8>, u64>) -> Vec<(Vec<u8>, u64)> {
    model.iter().map(|(k, v)| (k.clone(), *v)).collect()
}

#[test]
fn random_calls() {
    let mut chance = Chance(88172645463325252);
    let mut map = ArtMap::new().unwrap();
    let mut model = BTreeMap::new();
    for step in 0..200_000 {
        let key = chance.key();
        match chance.next(16) {
            0..=6 => {
                let conflict = conflicts(&model, &key);
                match map.insert(&key, step) {
                    Ok(old) => assert_eq!(old, model.insert(key, step)),
                    Err(error) => assert!(error == Error::Conflict && conflict),
                }
            }
            7 => assert_eq!(map.get(&key), model.get(&key).copied()),
            8 => {
                let found = (0..=key.len()).find_map(|n| Some((n, *model.get(&key[..n])?)));
                assert_eq!(map.prefix_get(&key), found);
            }
            9 | 10 => assert_eq!(map.remove(&key), model.remove(&key)),
            11 if key.len() > 2 => {
                let before = model.len();
                model.retain(|k, _| !k.starts_with(&key));
                assert_eq!(map.remove_prefix(&key), before - model.len());
            }
            12 => {
                map.overwrite(&key, step).unwrap();
                model.retain(|k, _| !k.starts_with(&key) && !key.starts_with(k));
                model.insert(key, step);
            }
            13 => {
                assert_eq!(map.first(), all(&model).first().cloned());
                assert_eq!(map.last(), all(&model).last().cloned());
            }
            14 => {
                let high = chance.key();
                let bounds = [Bound::Included, Bound::Excluded];
                let start = bounds[chance.next(2) as usize](&key[..]);
                let end = bounds[chance.next(2) as usize](&high[..]);
                let mut expected = all(&model);
                expected.retain(|(k, _)| {
                    use std::ops::RangeBounds;
                    (start, end).contains(&k[..])
                });
                assert_eq!(map.range(start, end).collect::<Vec<_>>(), expected);
            }
            15 => {
                let mut expected = all(&model);
                expected.retain(|(k, _)| k.starts_with(&key));
                assert_eq!(map.prefix(&key).collect::<Vec<_>>(), expected);
            }
            _ => {}
        }
        assert_eq!(map.len(), model.len());
        if step % 50_000 == 49_999 {
            assert_eq!(map.iter().collect::<Vec<_>>(), all(&model));
            map.clear();
            model.clear();
        }
    }
}

#[test]
fn pages_and_long_keys() {
    let mut map = ArtMap::new().unwrap();
    for i in 0..5000u64 {
        map.insert(format!("{i:08}").as_bytes(), i).unwrap();
    }
    assert!(map.iter().map(|(_, v)| v).eq(0..5000));
    assert!(map.prefix(b"00001").map(|(_, v)| v).eq(1000..2000));
    let long = vec![b'z'; 1_000_000];
    map.insert(&long, 1).unwrap();
    assert_eq!(map.iter().last(), Some((long.clone(), 1)));
    assert_eq!(map.last(), Some((long, 1)));
}
