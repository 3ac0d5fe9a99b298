//! The other functions of the library give what the independent ones give.

#[test]
fn hash_hmac_and_string_agree() {
    for seed in 1..=3000 {
        assert_eq!(drive::functions::compare(seed), None);
    }
}
