//! "FCS": the check of IEEE 802.3 clause 3, three ways.

/// How the FCS is computed. The result is the same for all three.
#[derive(Clone, Copy, Debug, PartialEq, Eq)]
pub enum Check {
    /// One bit at a time, as the paper defines it.
    Bitwise,
    /// One octet at a time with one table.
    ByteTable,
    /// Sixteen octets at a time with sixteen tables.
    Slicing16,
}

/// The divisor 0x04C11DB7, bit-reversed.
const DIVISOR: u32 = 0xEDB8_8320;

/// `TABLES[k][x]` is what the register `x` becomes after `k + 1` zero octets.
static TABLES: [[u32; 256]; 16] = build_tables();

const fn shift_octet(mut register: u32) -> u32 {
    let mut bit = 0;
    while bit < 8 {
        let carry = register & 1;
        register >>= 1;
        if carry == 1 {
            register ^= DIVISOR;
        }
        bit += 1;
    }
    register
}

const fn build_tables() -> [[u32; 256]; 16] {
    let mut tables = [[0; 256]; 16];
    let mut x = 0;
    while x < 256 {
        let mut register = x as u32;
        let mut k = 0;
        while k < 16 {
            register = shift_octet(register);
            tables[k][x] = register;
            k += 1;
        }
        x += 1;
    }
    tables
}

fn bitwise(register: u32, octets: &[u8]) -> u32 {
    octets.iter().fold(register, |register, &octet| {
        shift_octet(register ^ u32::from(octet))
    })
}

fn byte_table(register: u32, octets: &[u8]) -> u32 {
    octets.iter().fold(register, |register, &octet| {
        let [low, ..] = register.to_le_bytes();
        (register >> 8) ^ TABLES[0][usize::from(low ^ octet)]
    })
}

fn slicing16(mut register: u32, octets: &[u8]) -> u32 {
    let mut blocks = octets.chunks_exact(16);
    for block in &mut blocks {
        // The register meets the first four octets of the block; after that
        // each octet has 15, 14, .. 0 further octets to pass.
        let mut mixed = [0; 16];
        mixed.copy_from_slice(block);
        for (octet, old) in mixed.iter_mut().zip(register.to_le_bytes()) {
            *octet ^= old;
        }
        register = mixed
            .iter()
            .zip(TABLES.iter().rev())
            .fold(0, |sum, (&octet, table)| sum ^ table[usize::from(octet)]);
    }
    byte_table(register, blocks.remainder())
}

/// The register after `octets`, from `register` on; nothing is complemented.
/// A frame's check starts from all ones.
pub fn fcs_update(kind: Check, register: u32, octets: &[u8]) -> u32 {
    match kind {
        Check::Bitwise => bitwise(register, octets),
        Check::ByteTable => byte_table(register, octets),
        Check::Slicing16 => slicing16(register, octets),
    }
}

/// The FCS of `octets`: register of all ones at the start, result
/// complemented. Its low octet is sent first.
pub fn fcs(kind: Check, octets: &[u8]) -> u32 {
    !fcs_update(kind, u32::MAX, octets)
}
