//! SHA-256 against NIST's examples, HMAC against RFC 4231, and the refusals of hash, HMAC and the KDF encoder.

mod common;
use common::{hex, octets};

fn sha256(message: &[u8]) -> String {
    let mut out = [0; 32];
    assert_eq!(twin::hash(message, &mut out), (0, 32));
    hex(&out)
}

fn hmac(key: &[u8], message: &[u8]) -> String {
    let mut out = [0; 32];
    assert_eq!(twin::hmac(key, message, &mut out), (0, 32));
    hex(&out)
}

#[test]
fn nist() {
    assert_eq!(sha256(b""), "e3b0c44298fc1c149afbf4c8996fb92427ae41e4649b934ca495991b7852b855");
    assert_eq!(sha256(b"abc"), "ba7816bf8f01cfea414140de5dae2223b00361a396177a9cb410ff61f20015ad");
    assert_eq!(
        sha256(b"abcdbcdecdefdefgefghfghighijhijkijkljklmklmnlmnomnopnopq"),
        "248d6a61d20638b8e5c026930c3e6039a33ce45964ff2167f6ecedd419db06c1"
    );
    assert_eq!(
        sha256(
            b"abcdefghbcdefghicdefghijdefghijkefghijklfghijklmghijklmnhijklmnoijklmnopjklmnopqklmnopqrlmnopqrsmnopqrst\
              nopqrstu"
        ),
        "cf5b16a778af8380036ce59e7b0492370b249b11e8f07a51afac45037afee9d1"
    );
    assert_eq!(sha256(&[b'a'; 1_000_000]), "cdc76e5c9914fb9281a1c7e284d73e67f1809a48a497200e046d39ccc7112cd0");
    assert_eq!(sha256(&[0; 1_048_576]), "30e14955ebf1352266dc2ff8067e68104607e750abb9d3b36582b8af909fcb58");
}

/// Messages and keys of every length near the ends of blocks; the digest of all digests.
#[test]
fn every_length() {
    let mut hashes = vec![];
    let mut codes = vec![];
    for n in 0..=300usize {
        let message: Vec<u8> = (0..n).map(|i| (i * 7 + n) as u8).collect();
        let key: Vec<u8> = (0..n % 140).map(|i| (i * 5 + n) as u8).collect();
        hashes.extend(octets(&sha256(&message)));
        codes.extend(octets(&hmac(&key, &message)));
    }
    assert_eq!(sha256(&hashes), "60d63ff40b5558727a9b786ac0be9300f7ca58fd9ddd3b2f3681b369018a87dc");
    assert_eq!(sha256(&codes), "b8f6595b6934e1ef8bf55b70ce02a3a80aa51e9ab79330d3e67131c531fa95fe");
}

#[test]
fn rfc_4231() {
    let counting: Vec<u8> = (1..=25).collect();
    let long = [0xaa; 131];
    let cases: [(&[u8], &[u8], &str); 7] = [
        (&[0x0b; 20], b"Hi There", "b0344c61d8db38535ca8afceaf0bf12b881dc200c9833da726e9376c2e32cff7"),
        (b"Jefe", b"what do ya want for nothing?", "5bdcc146bf60754e6a042426089575c75a003f089d2739839dec58b964ec3843"),
        (&[0xaa; 20], &[0xdd; 50], "773ea91e36800e46854db8ebd09181a72959098b3ef8c122d9635514ced565fe"),
        (&counting, &[0xcd; 50], "82558a389a443c0ea4cc819899f2083a85f0faa3e578f8077a2e3ff46729665b"),
        (&[0x0c; 20], b"Test With Truncation", "a3b6167473100ee06e0c796c2955552b"),
        (
            &long,
            b"Test Using Larger Than Block-Size Key - Hash Key First",
            "60e431591ee0b67f0d8a26aacbf5b77f8e0bc6213728c5140546040f0ee37f54",
        ),
        (
            &long,
            b"This is a test using a larger than block-size key and a larger than block-size data. The key needs to be \
              hashed before being used by the HMAC algorithm.",
            "9b09ffa71b942fcb27635fbcd5b0e944bfdc63644f0713938a7f51535c3a35e2",
        ),
    ];
    for (key, message, code) in cases {
        assert_eq!(hmac(key, message)[..code.len()], *code);
    }
}

#[test]
fn refusals_write_nothing() {
    let long = vec![0; 1_048_577];
    let mut out = [9; 40];
    assert_eq!(twin::hash(&long, &mut out[..31]), (3, 0));
    assert_eq!(twin::hash(b"", &mut out[..31]), (2, 0));
    assert_eq!(twin::hmac(&long, b"", &mut out), (3, 0));
    assert_eq!(twin::hmac(b"", &long, &mut out), (3, 0));
    assert_eq!(twin::hmac(b"", b"", &mut out[..31]), (2, 0));
    assert_eq!(twin::kdf_string(1, &[0; 9], &[1; 9], &mut out), (3, 0));
    assert_eq!(twin::kdf_string(1, &[0; 65_536], &[65_536], &mut out), (3, 0));
    assert_eq!(twin::kdf_string(1, &[0; 5], &[3, 3], &mut out), (3, 0));
    assert_eq!(twin::kdf_string(1, &[0; 7], &[3, 3], &mut out), (3, 0));
    assert_eq!(twin::kdf_string(1, &[0; 7], &[3, 3], &mut []), (3, 0));
    assert_eq!(twin::kdf_string(1, &[0; 6], &[3, 3], &mut out[..10]), (2, 0));
    assert_eq!(twin::kdf_string(1, &[], &[], &mut []), (2, 0));
    assert_eq!(out, [9; 40]);
    assert_eq!(twin::hmac(b"", b"", &mut out), (0, 32));
    assert_eq!(out[32..], [9; 8]);
}

#[test]
fn kdf_strings() {
    let mut out = [9; 40];
    assert_eq!(twin::kdf_string(0xff, &[], &[], &mut out), (0, 1));
    assert_eq!(out[..2], [0xff, 9]);
    assert_eq!(twin::kdf_string(2, &[5, 6, 7], &[0, 2, 0, 1, 0, 0, 0, 0], &mut out), (0, 20));
    assert_eq!(out[..20], octets("02 0000 0506 0002 0000 07 0001 0000 0000 0000 0000"));
    assert_eq!(out[20..], [9; 20]);
    let mut long = vec![9; 65_540];
    assert_eq!(twin::kdf_string(3, &[1; 65_535], &[65_535], &mut long), (0, 65_538));
    assert_eq!(long[65_535..], [1, 0xff, 0xff, 9, 9]);
}
