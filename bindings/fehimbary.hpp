// Fehimbary for C++17: views of the bits of any memory, which are a pointer and two numbers, and ranges of bits for
// <algorithm>. A call that is refused throws, and has written nothing. What each does and costs is said at the C function
// of its name (fehimbary.h), with what a caller has to keep: the memory is there as long as the view is used, and nobody
// writes it meanwhile. Right bits that share elements with those that are written are copied first.
#ifndef FEHIMBARY_HPP
#define FEHIMBARY_HPP

#include "fehimbary/refused.hpp"    // Refused: what a refused call throws
#include "fehimbary/elements.hpp"   // Lsb0, Msb0: which bit of an element comes first
#include "fehimbary/iterator.hpp"   // Reference, BitIterator: a bit, and its place; Ones: the indices of ones
#include "fehimbary/bits.hpp"       // Bits: bits of a memory
#include "fehimbary/compare.hpp"    // ==, <, also of other elements
#include "fehimbary/own_bits.hpp"   // OwnBits: bits with a memory of their own
#include "fehimbary/algorithms.hpp" // std::count, find, copy and others by words, std::hash

#endif
