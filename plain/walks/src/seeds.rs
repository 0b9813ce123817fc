use c_handles::Keyed;
use std::collections::hash_map::DefaultHasher;
use std::hash::{BuildHasher, Hasher};

#[test]
fn a_hasher_is_given_both_of_its_keys_in_order() {
    let mut hashes = Vec::new();
    for keys in [[0, 0], [0, 1], [1, 0], [1, 1], [1, 2], [u64::MAX, 2]] {
        let mut own = DefaultHasher::new();
        for number in [keys[0], keys[1], 77] {
            own.write_u64(number);
        }
        let mut keyed = Keyed::of(&keys).build_hasher();
        keyed.write_u64(77);
        let hash = keyed.finish();
        assert_eq!(hash, own.finish());
        assert!(!hashes.contains(&hash));
        hashes.push(hash);
    }
}
