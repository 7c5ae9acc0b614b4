//! The bit sets of Rust that the benchmark compares with, as C functions over owned sets.

use bit_vec::BitVec;
use fixedbitset::FixedBitSet;

/// A set of the bits of the words, bit 0 of the first word first.
///
/// # Safety
/// `words` points to `count` words.
#[no_mangle]
pub unsafe extern "C" fn fixedbitset_new(words: *const u32, count: usize) -> *mut FixedBitSet {
    let words = std::slice::from_raw_parts(words, count);
    let set = FixedBitSet::with_capacity_and_blocks(32 * count, words.iter().copied());
    Box::into_raw(Box::new(set))
}

/// # Safety
/// `set` comes from `fixedbitset_new`, and is used no more.
#[no_mangle]
pub unsafe extern "C" fn fixedbitset_free(set: *mut FixedBitSet) {
    drop(Box::from_raw(set));
}

#[no_mangle]
pub extern "C" fn fixedbitset_copy(to: &mut FixedBitSet, from: &FixedBitSet) {
    to.as_mut_slice().copy_from_slice(from.as_slice());
}

#[no_mangle]
pub extern "C" fn fixedbitset_or(to: &mut FixedBitSet, from: &FixedBitSet) {
    to.union_with(from);
}

#[no_mangle]
pub extern "C" fn fixedbitset_equal(left: &FixedBitSet, right: &FixedBitSet) -> bool {
    left == right
}

#[no_mangle]
pub extern "C" fn fixedbitset_fill(set: &mut FixedBitSet, start: usize, len: usize, bit: bool) {
    set.set_range(start..start + len, bit);
}

#[no_mangle]
pub extern "C" fn fixedbitset_invert(set: &mut FixedBitSet, start: usize, len: usize) {
    set.toggle_range(start..start + len);
}

#[no_mangle]
pub extern "C" fn fixedbitset_count_ones(set: &FixedBitSet, start: usize, len: usize) -> usize {
    set.count_ones(start..start + len)
}

#[no_mangle]
pub extern "C" fn fixedbitset_first_one(set: &FixedBitSet) -> usize {
    set.ones().next().unwrap_or(set.len())
}

#[no_mangle]
pub extern "C" fn fixedbitset_iter_ones(set: &FixedBitSet) -> usize {
    set.ones().fold(0, usize::wrapping_add)
}

/// A vector of the bits of the words, bit 0 of the first word first.
///
/// # Safety
/// `words` points to `count` words.
#[no_mangle]
pub unsafe extern "C" fn bit_vec_new(words: *const u32, count: usize) -> *mut BitVec {
    let words = std::slice::from_raw_parts(words, count);
    let bits = BitVec::from_fn(32 * count, |i| words[i / 32] >> (i % 32) & 1 == 1);
    Box::into_raw(Box::new(bits))
}

/// # Safety
/// `bits` comes from `bit_vec_new`, and is used no more.
#[no_mangle]
pub unsafe extern "C" fn bit_vec_free(bits: *mut BitVec) {
    drop(Box::from_raw(bits));
}

#[no_mangle]
pub extern "C" fn bit_vec_copy(to: &mut BitVec, from: &BitVec) {
    to.clone_from(from);
}

#[no_mangle]
pub extern "C" fn bit_vec_or(to: &mut BitVec, from: &BitVec) {
    to.or(from);
}

#[no_mangle]
pub extern "C" fn bit_vec_equal(left: &BitVec, right: &BitVec) -> bool {
    left == right
}

#[no_mangle]
pub extern "C" fn bit_vec_compare(left: &BitVec, right: &BitVec) -> i32 {
    left.cmp(right) as i32
}

#[no_mangle]
pub extern "C" fn bit_vec_fill(bits: &mut BitVec, bit: bool) {
    if bit {
        bits.set_all();
    } else {
        bits.clear();
    }
}

#[no_mangle]
pub extern "C" fn bit_vec_invert(bits: &mut BitVec) {
    bits.negate();
}

#[no_mangle]
pub extern "C" fn bit_vec_count_ones(bits: &BitVec) -> usize {
    bits.iter().filter(|&bit| bit).count()
}

#[no_mangle]
pub extern "C" fn bit_vec_first_one(bits: &BitVec) -> usize {
    bits.iter().position(|bit| bit).unwrap_or(bits.len())
}

#[no_mangle]
pub extern "C" fn bit_vec_iter_ones(bits: &BitVec) -> usize {
    let ones = bits.iter().enumerate().filter(|&(_, bit)| bit);
    ones.fold(0, |sum, (index, _)| sum.wrapping_add(index))
}

// ---- sequences that get more bits or fewer, a round a call

/// The bit of an index that a round adds.
fn bit_of(index: usize, round: usize) -> bool {
    (index ^ round) % 4 == 0
}

/// A vector of `len` bits: `front` ones, and then one in three that is 1.
#[no_mangle]
pub extern "C" fn bit_vec_of(front: usize, len: usize) -> *mut BitVec {
    let bits = BitVec::from_fn(len, |i| i < front || (i - front) % 3 == 0);
    Box::into_raw(Box::new(bits))
}

#[no_mangle]
pub extern "C" fn bit_vec_push(bits: &mut BitVec, len: usize, round: usize) {
    let mut made = BitVec::new();
    for index in 0..len {
        made.push(bit_of(index, round));
    }
    *bits = made;
}

#[no_mangle]
pub extern "C" fn bit_vec_pop(bits: &mut BitVec, len: usize, round: usize) -> usize {
    let mut ones = 0;
    for _ in 0..len {
        ones += usize::from(bits.pop() == Some(true));
    }
    bits.grow(len, round % 2 == 0);
    ones
}

/// # Safety
/// `bools` points to `count` truth values.
#[no_mangle]
pub unsafe extern "C" fn bit_vec_extend(bits: &mut BitVec, bools: *const bool, count: usize, front: usize) {
    bits.truncate(front);
    bits.extend(std::slice::from_raw_parts(bools, count).iter().copied());
}

#[no_mangle]
pub extern "C" fn bit_vec_append(bits: &mut BitVec, more: &BitVec, front: usize) {
    bits.truncate(front);
    bits.append(&mut more.clone());
}

#[no_mangle]
pub extern "C" fn bit_vec_resize(bits: &mut BitVec, len: usize, front: usize, round: usize) {
    bits.truncate(front);
    bits.grow(len - front, round % 2 == 0);
}
