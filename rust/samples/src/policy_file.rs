//! Policy files: elements, lists, the file with its PolicyHash, and an image under a LIST policy.

use super::{put, Image, POLICY_BASE, POLICY_SIZE};
use inputs::{Parts, Platform};
use plain_sha256::digest_in_parts;

/// A policy element.
pub fn element(kind: u32, body: &[u8]) -> Vec<u8> {
    let mut element = Vec::new();
    element.extend_from_slice(&(12 + body.len() as u32).to_le_bytes());
    element.extend_from_slice(&kind.to_le_bytes());
    element.extend_from_slice(&[0; 4]);
    element.extend_from_slice(body);
    element
}

/// The body of an STM element with so many digests, which are given as their bytes.
pub fn stm_body(hash_alg: u16, count: u16, digests: &[u8]) -> Vec<u8> {
    [&hash_alg.to_le_bytes(), &count.to_le_bytes(), digests].concat()
}

/// An STM element that names these SHA-256 digests.
pub fn stm(digests: &[[u8; 32]]) -> Vec<u8> {
    element(0x14, &stm_body(0x000b, digests.len() as u16, &digests.concat()))
}

/// The body of a launch element, which ends like that of an STM element.
pub fn launch_body(sinit_min_version: u8, hash_alg: u16, count: u16, digests: &[u8]) -> Vec<u8> {
    [&[sinit_min_version, 0][..], &stm_body(hash_alg, count, digests)].concat()
}

/// A launch element that names these SHA-256 digests.
pub fn launch(sinit_min_version: u8, digests: &[[u8; 32]]) -> Vec<u8> {
    element(0x10, &launch_body(sinit_min_version, 0x000b, digests.len() as u16, &digests.concat()))
}

fn list_of(algorithm: u16, elements: &[Vec<u8>]) -> Vec<u8> {
    let body = elements.concat();
    let mut list = 0x0201u16.to_le_bytes().to_vec();
    list.extend_from_slice(&algorithm.to_le_bytes());
    list.extend_from_slice(&(body.len() as u32).to_le_bytes());
    list.extend_from_slice(&body);
    list
}

/// An unsigned policy list of these elements.
pub fn list(elements: &[Vec<u8>]) -> Vec<u8> {
    list_of(0x0010, elements)
}

/// A policy list with a counter, a key size, and a key and a signature of so many bytes.
pub fn signed(elements: &[Vec<u8>], size: u16) -> Vec<u8> {
    let mut list = list_of(0x0014, elements);
    list.extend_from_slice(&1u16.to_le_bytes());
    list.extend_from_slice(&size.to_le_bytes());
    list.extend((0..2 * size).map(|i| (i * 5 + 1) as u8));
    list
}

/// What of a list is measured: all of it, or the key where it is signed.
pub fn measured(list: &[u8]) -> &[u8] {
    if list[2..4] == 0x0010u16.to_le_bytes() {
        return list;
    }
    let elements = u32::from_le_bytes([list[4], list[5], list[6], list[7]]) as usize;
    let size = usize::from(u16::from_le_bytes([list[8 + elements + 2], list[8 + elements + 3]]));
    &list[8 + elements + 4..][..size]
}

/// PolicyHash of these lists.
pub fn policy_hash(lists: &[Vec<u8>]) -> [u8; 32] {
    let measures: Vec<u8> = lists.iter().flat_map(|list| digest_in_parts(measured(list), 0)).collect();
    digest_in_parts(&measures, 0)
}

/// A policy file of these lists, and its PolicyHash.
pub fn policy_file(lists: &[Vec<u8>]) -> (Vec<u8>, [u8; 32]) {
    let mut file = b"Intel(R) TXT LCP_POLICY_DATA".to_vec();
    file.extend_from_slice(&[0; 7]);
    file.push(lists.len() as u8);
    lists.iter().for_each(|list| file.extend_from_slice(list));
    (file, policy_hash(lists))
}

/// The policy file that OsSinitData names, where rules 2 and 26 hold. OsSinitData is the heap's third part.
pub fn policy_bytes<'a>(parts: &Parts<'a>, platform: &Platform) -> &'a [u8] {
    let number = |at: usize| parts.heap[at..at + 8].iter().rev().fold(0, |number, byte| number << 8 | u64::from(*byte));
    let second = number(0) as usize;
    let os_sinit_data = second + number(second) as usize + 8;
    let at = (number(os_sinit_data + 64) - platform.window_base) as usize;
    &parts.window[at..at + number(os_sinit_data + 72) as usize]
}

/// The same image under a LIST policy with this file, which stands behind the window's last byte.
pub fn with_file(image: &Image, file: &[u8], hash: &[u8; 32]) -> Image {
    let mut image = image.clone();
    let at = image.platform.window_base + image.window.len() as u64;
    image.window.extend_from_slice(file);
    put(&mut image.heap, POLICY_BASE, at, 8);
    put(&mut image.heap, POLICY_SIZE, file.len() as u64, 8);
    put(&mut image.record, 4, 0, 1);
    image.record[38..70].copy_from_slice(hash);
    image
}

/// The same image under a LIST policy of one list, which names it.
pub fn under_list(image: &Image) -> Image {
    let digest = digest_in_parts(&image.bytes(), 0);
    with_lists(image, &[list(&[launch(0, &[digest])])])
}

/// The same with the file of these lists.
pub fn with_lists(image: &Image, lists: &[Vec<u8>]) -> Image {
    let (file, hash) = policy_file(lists);
    with_file(image, &file, &hash)
}
