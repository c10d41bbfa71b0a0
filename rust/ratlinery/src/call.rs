//! The calls into the library, each with the `answer` that it fills.

use crate::refusal::{Refusal, Side, judged};
use crate::{Epitaph, Header, TypeTable};
#[cfg(feature = "prepared")]
use ratlinery_sys::slices::Counts;
use ratlinery_sys::slices::{self, Asked};

pub(crate) fn layout(table: TypeTable, row: u32) -> Result<[u64; 2], Refusal> {
    let mut answer = [0; 3];
    let number = slices::layout(table.types, row, &mut answer);
    let [place, results @ ..] = answer;
    judged(Side::Reader, number, place).map(|()| results)
}

pub(crate) fn check(asked: Asked) -> Result<(), Refusal> {
    let mut answer = [0; 1];
    let number = slices::check(asked, &mut answer);
    judged(Side::Reader, number, answer[0])
}

pub(crate) fn read(asked: Asked, values: &mut [u64], objects: &mut [u32]) -> Result<[u64; 2], Refusal> {
    let mut answer = [0; 3];
    let number = slices::read(asked, values, objects, &mut answer);
    let [place, results @ ..] = answer;
    judged(Side::Reader, number, place).map(|()| results)
}

pub(crate) fn read_values(asked: Asked, values: &mut [u64]) -> Result<u64, Refusal> {
    let mut answer = [0; 2];
    let number = slices::read_values(asked, values, &mut answer);
    judged(Side::Reader, number, answer[0]).map(|()| answer[1])
}

pub(crate) fn read_objects(asked: Asked, objects: &mut [u32]) -> Result<u64, Refusal> {
    let mut answer = [0; 2];
    let number = slices::read_objects(asked, objects, &mut answer);
    judged(Side::Reader, number, answer[0]).map(|()| answer[1])
}

pub(crate) fn write(
    table: TypeTable,
    root: u32,
    values: &[u64],
    out: &mut [u8],
) -> Result<[u64; 2], Refusal> {
    let mut answer = [0; 3];
    let number = slices::write(table.types, root, values, out, &mut answer);
    let [place, results @ ..] = answer;
    judged(Side::Writer, number, place).map(|()| results)
}

pub(crate) fn header_read(message: &[u8]) -> Result<[u64; 6], Refusal> {
    let mut answer = [0; 7];
    let number = slices::header_read(message, &mut answer);
    let [place, results @ ..] = answer;
    judged(Side::Reader, number, place).map(|()| results)
}

pub(crate) fn header_write(header: Header, out: &mut [u8]) -> Result<u64, Refusal> {
    let mut answer = [0; 2];
    let number = slices::header_write(header.transaction, header.flags, header.ordinal, out, &mut answer);
    judged(Side::Reader, number, answer[0]).map(|()| answer[1])
}

pub(crate) fn epitaph_write(epitaph: Epitaph, out: &mut [u8]) -> Result<u64, Refusal> {
    let mut answer = [0; 2];
    let number = slices::epitaph_write(epitaph.flags, epitaph.status, out, &mut answer);
    judged(Side::Reader, number, answer[0]).map(|()| answer[1])
}

pub(crate) fn utf8(text: &[u8]) -> Result<(), Refusal> {
    let mut answer = [0; 1];
    let number = slices::utf8(text, &mut answer);
    judged(Side::Reader, number, answer[0])
}

#[cfg(feature = "prepared")]
pub(crate) fn prepare(table: TypeTable, state: &mut [u32]) -> Result<(), Refusal> {
    let mut answer = [0; 1];
    let number = slices::prepare(table.types, state, &mut answer);
    judged(Side::Reader, number, answer[0])
}

#[cfg(feature = "prepared")]
pub(crate) fn append(table: TypeTable, state: &mut [u32]) -> Result<(), Refusal> {
    let mut answer = [0; 1];
    let number = slices::append(table.types, state, &mut answer);
    judged(Side::Reader, number, answer[0])
}

#[cfg(feature = "prepared")]
pub(crate) fn go_back(table: TypeTable, to: Counts, state: &mut [u32]) -> Result<(), Refusal> {
    let mut answer = [0; 1];
    let number = slices::go_back(table.types, to, state, &mut answer);
    judged(Side::Reader, number, answer[0])
}

#[cfg(feature = "prepared")]
pub(crate) fn check_prepared(asked: Asked, state: &[u32]) -> Result<(), Refusal> {
    let mut answer = [0; 1];
    let number = slices::check_prepared(asked, state, &mut answer);
    judged(Side::Reader, number, answer[0])
}
