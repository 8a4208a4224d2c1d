//! The Borsh form by plain loops over std's readers and writers, since no crate of the form is at hand.

use crate::report::Report;
use std::io::{self, Read, Write};
use tinyvec::ArrayVec;

// So many bytes are the count in front of the items.
const COUNT: usize = 8;

/// The rows of a list of numbers.
pub fn of_form<const N: usize>(report: &Report)
where
    [u32; N]: tinyvec::Array<Item = u32>,
{
    let mut numbers: ArrayVec<[u32; N]> = (0..N as u32).collect();
    let mut form = Vec::new();
    report.row("borsh_write_u32", N, |x| write(&numbers, &mut form, x));
    report.row("borsh_read_u32", N, |x| read(&mut numbers, &form, x));
}

// Writes the list, and answers how many bytes there are.
#[inline(never)]
fn write<const N: usize>(vec: &ArrayVec<[u32; N]>, form: &mut Vec<u8>, x: u64) -> u64
where
    [u32; N]: tinyvec::Array<Item = u32>,
{
    form.clear();
    let _ = form.write_all(&(vec.len() as u64).to_le_bytes());
    for item in vec {
        let _ = form.write_all(&item.to_le_bytes());
    }
    x.wrapping_add(form.len() as u64)
}

// Reads the list from its bytes.
#[inline(never)]
fn read<const N: usize>(vec: &mut ArrayVec<[u32; N]>, form: &[u8], x: u64) -> u64
where
    [u32; N]: tinyvec::Array<Item = u32>,
{
    let Ok(list) = read_list(&mut &*form) else {
        return 0;
    };
    *vec = list;
    x
}

fn read_list<const N: usize>(reader: &mut impl Read) -> io::Result<ArrayVec<[u32; N]>>
where
    [u32; N]: tinyvec::Array<Item = u32>,
{
    let mut bytes = [0; COUNT];
    reader.read_exact(&mut bytes)?;
    let count = u64::from_le_bytes(bytes);
    if count > N as u64 {
        return Err(io::ErrorKind::InvalidData.into());
    }
    let mut list = ArrayVec::new();
    list.set_len(count as usize);
    for item in &mut list {
        let mut bytes = [0; 4];
        reader.read_exact(&mut bytes)?;
        *item = u32::from_le_bytes(bytes);
    }
    Ok(list)
}
