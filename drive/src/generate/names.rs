//! Names that nearly are each other, and rows of them.

use super::*;

pub(super) fn domain(draw: &mut Draw) -> Vec<u8> {
    match draw.below(10) {
        0 => b"d".to_vec(),
        1 => vec![b'd'; 64],
        2 => b"bsf.mnc001.mcc001.pub.3gppnetwork.org".to_vec(),
        3 => {
            let length = draw.between(1, 64);
            draw.octets(length)
        }
        _ => b"bsf.example".to_vec(),
    }
}

/// Different names, some of which nearly are another.
pub(super) fn names(draw: &mut Draw, count: usize) -> Vec<Vec<u8>> {
    let mut names: Vec<Vec<u8>> = vec![];
    while names.len() < count {
        let at = names.len();
        let name = match draw.below(12) {
            0 if at > 0 => near_miss(draw, &names[at - 1].clone()),
            1 => [format!("{at:02}@").into_bytes(), vec![b'x'; 61]].concat(),
            2 => vec![b'a' + (at % 26) as u8],
            3 => draw.array::<3>().to_vec(),
            4 => format!("00101{at:010}@ims.mnc001.mcc001.3gppnetwork.org").into_bytes(),
            _ => format!("s{at}@e").into_bytes(),
        };
        if !names.contains(&name) && (1..=NAME).contains(&name.len()) {
            names.push(name);
        }
    }
    names
}

/// A name that is nearly the one given.
pub(super) fn near_miss(draw: &mut Draw, name: &[u8]) -> Vec<u8> {
    let mut near = name.to_vec();
    match draw.below(6) {
        0 => {
            near.pop();
        }
        1 => near.push(0),
        2 => near.push(b'.'),
        3 => near[0] ^= 0x20,
        4 => {
            let last = near.len() - 1;
            near[last] ^= draw.pick(&[0x20, 1, 0x80]);
        }
        _ => {
            let at = draw.below(near.len());
            near[at] ^= 1 << draw.below(8);
        }
    }
    near
}

pub(super) fn rows(draw: &mut Draw, program: bool, theme: Theme) -> Vec<twin::Row> {
    let count = match draw.below(20) {
        0 if theme != Theme::Keys && theme != Theme::Closed => 0,
        1..=6 => 1,
        7..=11 => draw.between(2, 4),
        12..=13 => PROGRAM_ROWS,
        14 if !program => draw.pick(&[17, 40, 256]),
        _ => draw.between(2, PROGRAM_ROWS),
    };
    let pool = names(draw, 1 + count.min(12) / 2);
    // Else the later ones of many rows would hardly ever be the first of their names.
    let own_names = count > PROGRAM_ROWS || draw.chance(20);
    (0..count)
        .map(|place| {
            let mut row = twin::Row {
                identity: draw.chance(50),
                group: draw.weighted(&[(6, 0), (3, 1), (1, 255)]),
                required: draw.weighted(&[(6, 0), (2, 1), (1, 2), (1, 7)]),
                ..Default::default()
            };
            let own = format!("shelf-{place}.e").into_bytes();
            let (peer, fqdn) = (&pool[draw.below(pool.len())], &pool[draw.below(pool.len())]);
            let fqdn = if own_names && draw.chance(70) { &own } else { fqdn };
            row.peer[..peer.len()].copy_from_slice(peer);
            row.fqdn[..fqdn.len()].copy_from_slice(fqdn);
            (row.peer_length, row.fqdn_length) = (peer.len(), fqdn.len());
            if !program && draw.chance(15) {
                let odd = [0, 65, 66, 128, 256, 1 << 32, (1 << 32) + 1, usize::MAX];
                match draw.below(3) {
                    0 => row.peer_length = draw.pick(&odd),
                    1 => row.fqdn_length = draw.pick(&odd),
                    _ => (row.peer_length, row.fqdn_length) = (draw.pick(&odd), draw.pick(&odd)),
                }
            }
            row
        })
        .collect()
}
