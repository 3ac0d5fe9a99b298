//! The key derivation function of TS 33.220 Annex B.

use crate::sha256::hmac_sha256;
use crate::{FORM, SHORT};

/// The most parameters of a string.
pub const MOST_PARAMETERS: usize = 8;

/// The longest parameter: its length is written in two octets.
pub const LONGEST_PARAMETER: usize = 65_535;

/// The longest string of a Ks_NAF: FC, "gba-me", RAND, an IMPI of 64 octets, a NAF_Id of 69.
const LONGEST_KS_NAF: usize = 164;

const FC_KS_NAF: u8 = 0x01;

/// B.2.0: FC, then each parameter and its length as two octets, high first. The parameters are lent as one run of
/// octets with their lengths. Returns as an event does.
pub fn kdf_string(fc: u8, run: &[u8], lengths: &[usize], out: &mut [u8]) -> (u32, usize) {
    if lengths.len() > MOST_PARAMETERS
        || lengths.iter().any(|&length| length > LONGEST_PARAMETER)
        || lengths.iter().sum::<usize>() != run.len()
    {
        return (FORM, 0);
    }
    let string = 1 + run.len() + 2 * lengths.len();
    if out.len() < string {
        return (SHORT, 0);
    }
    out[0] = fc;
    let mut at = 1;
    let mut rest = run;
    for &length in lengths {
        let (parameter, after) = rest.split_at(length);
        at += write_parameter(parameter, &mut out[at..]);
        rest = after;
    }
    (0, at)
}

fn write_parameter(parameter: &[u8], out: &mut [u8]) -> usize {
    let length = parameter.len();
    out[..length].copy_from_slice(parameter);
    out[length..length + 2].copy_from_slice(&(length as u16).to_be_bytes());
    length + 2
}

/// B.3: Ks_NAF = KDF(Ks, "gba-me", RAND, IMPI, NAF_Id).
pub fn ks_naf(ks: &[u8; 32], rand: &[u8; 16], impi: &[u8], naf_id: &[u8]) -> [u8; 32] {
    let mut string = [0; LONGEST_KS_NAF];
    string[0] = FC_KS_NAF;
    let mut at = 1;
    for parameter in [b"gba-me", &rand[..], impi, naf_id] {
        at += write_parameter(parameter, &mut string[at..]);
    }
    hmac_sha256(ks, &string[..at])
}
