//! Headers of IPv4 and TCP, and frames of CAN with their check and their stuffed bits.
use fehimbary::prelude::*;

#[derive(Debug, Clone, PartialEq, Eq, Default)]
pub struct Ipv4 {
    words: u8,
    services: u8,
    congestion: u8,
    total: u16,
    id: u16,
    dont_fragment: bool,
    more_fragments: bool,
    offset: u16,
    ttl: u8,
    protocol: u8,
    sum: u16,
    source: u32,
    destination: u32,
}

impl Ipv4 {
    pub fn parse(bytes: &[u8]) -> Result<Self, &'static str> {
        let bits = bytes.view_bits::<Msb0>();
        if bits.len() < 160 {
            return Err("short");
        }
        if bits.part(0..4).load_be::<u8>() != 4 {
            return Err("version");
        }
        Ok(Ipv4 {
            words: bits.part(4..8).load_be(),
            services: bits.part(8..14).load_be(),
            congestion: bits.part(14..16).load_be(),
            total: bits.part(16..32).load_be(),
            id: bits.part(32..48).load_be(),
            dont_fragment: bits[49],
            more_fragments: bits[50],
            offset: bits.part(51..64).load_be(),
            ttl: bits.part(64..72).load_be(),
            protocol: bits.part(72..80).load_be(),
            sum: bits.part(80..96).load_be(),
            source: bits.part(96..128).load_be(),
            destination: bits.part(128..160).load_be(),
        })
    }

    pub fn write(&self, bytes: &mut [u8]) {
        let mut bits = bytes.view_bits_mut::<Msb0>();
        bits.part_mut(0..4).store_be(4u8);
        bits.part_mut(4..8).store_be(self.words);
        bits.part_mut(8..14).store_be(self.services);
        bits.part_mut(14..16).store_be(self.congestion);
        bits.part_mut(16..32).store_be(self.total);
        bits.part_mut(32..48).store_be(self.id);
        bits.set(48, false);
        bits.set(49, self.dont_fragment);
        bits.set(50, self.more_fragments);
        bits.part_mut(51..64).store_be(self.offset);
        bits.part_mut(64..72).store_be(self.ttl);
        bits.part_mut(72..80).store_be(self.protocol);
        bits.part_mut(80..96).store_be(self.sum);
        bits.part_mut(96..128).store_be(self.source);
        bits.part_mut(128..160).store_be(self.destination);
    }
}

/// The sum of a header's pairs of bytes, as IPv4 checks it: 0xFFFF where the header is whole.
pub fn sum_of_pairs(header: BitSlice<u8, Msb0>) -> u16 {
    header.chunks(16).fold(0, |sum, pair| {
        let (sum, carries) = u16::overflowing_add(sum, pair.load_be());
        sum + u16::from(carries)
    })
}

#[derive(Debug, Clone, PartialEq, Eq, Default)]
pub struct Tcp {
    source: u16,
    destination: u16,
    sequence: u32,
    acknowledged: u32,
    words: u8,
    /// FIN, SYN, RST, PSH, ACK, URG, ECE, CWR and NS, from the lowest bit on.
    flags: BitArray<u16>,
    window: u16,
    sum: u16,
    urgent: u16,
}

impl Tcp {
    pub fn parse(bytes: &[u8; 20]) -> Self {
        let bits = bytes.view_bits::<Msb0>();
        let mut flags = bitarr![u16, Lsb0; 0; 9];
        flags.part_mut(..9).store(bits.part(103..112).load_be::<u16>());
        Tcp {
            source: bits.part(0..16).load_be(),
            destination: bits.part(16..32).load_be(),
            sequence: bits.part(32..64).load_be(),
            acknowledged: bits.part(64..96).load_be(),
            words: bits.part(96..100).load_be(),
            flags,
            window: bits.part(112..128).load_be(),
            sum: bits.part(128..144).load_be(),
            urgent: bits.part(144..160).load_be(),
        }
    }

    pub fn to_bytes(&self) -> [u8; 20] {
        let mut made = bitarr![u8, Msb0; 0; 160];
        made.part_mut(0..16).store_be(self.source);
        made.part_mut(16..32).store_be(self.destination);
        made.part_mut(32..64).store_be(self.sequence);
        made.part_mut(64..96).store_be(self.acknowledged);
        made.part_mut(96..100).store_be(self.words);
        made.part_mut(103..112).store_be(self.flags.part(..9).load::<u16>());
        made.part_mut(112..128).store_be(self.window);
        made.part_mut(128..144).store_be(self.sum);
        made.part_mut(144..160).store_be(self.urgent);
        made.into_inner()
    }
}

/// A frame of CAN 2.0A up to its check, not stuffed: start, identifier, three flags, the length, the data and the check.
pub fn can_frame(id: u16, data: &[u8]) -> BitVec<u8, Msb0> {
    let mut bits = bitvec![u8, Msb0; 0];
    bits.extend_from_bitslice(id.view_bits::<Msb0>().part(5..));
    bits.extend([false; 3]);
    bits.extend_from_bitslice((data.len() as u8).view_bits::<Msb0>().part(4..));
    bits.extend_from_bitslice(data.view_bits::<Msb0>());
    let check = crc15(bits.as_bitslice());
    bits.extend_from_bitslice(check.view_bits::<Msb0>().part(1..));
    bits
}

fn crc15(bits: BitSlice<u8, Msb0>) -> u16 {
    bits.iter().by_vals().fold(0u16, |crc, bit| {
        let top = crc >> 14 & 1 == 1;
        let crc = crc << 1 & 0x7FFF;
        if bit != top {
            crc ^ 0x4599
        } else {
            crc
        }
    })
}

/// The bits with the opposite one behind each five that are equal.
pub fn stuffed(bits: BitSlice<u8, Msb0>) -> BitVec<u8, Msb0> {
    let mut made = BitVec::with_capacity(bits.len() * 5 / 4);
    let mut run = 0;
    for bit in bits {
        run = if made.last().as_deref() == Some(&*bit) { run + 1 } else { 1 };
        made.push(*bit);
        if run == 5 {
            made.push(!*bit);
            run = 1;
        }
    }
    made
}

/// The bits that were stuffed; `None` where six in a row are equal.
pub fn unstuffed(bits: BitSlice<u8, Msb0>) -> Option<BitVec<u8, Msb0>> {
    let mut made = BitVec::new();
    let mut last = None;
    let mut run = 0;
    for bit in bits.iter().by_vals() {
        let was_full = run == 5;
        run = if last == Some(bit) { run + 1 } else { 1 };
        last = Some(bit);
        match (was_full, run) {
            (true, 6) => return None,
            (true, _) => {}
            (false, _) => made.push(bit),
        }
    }
    Some(made)
}

fn main() {
    let header = [0x45, 0, 0, 0x73, 0, 0, 0x40, 0, 0x40, 0x11, 0xB8, 0x61, 192, 168, 0, 1, 192, 168, 0, 199];
    let ip = Ipv4::parse(&header).expect("a whole header");
    assert_eq!((ip.words, ip.total, ip.ttl, ip.protocol, ip.sum), (5, 115, 64, 17, 0xB861));
    assert!(ip.dont_fragment && !ip.more_fragments);
    assert_eq!((ip.source, ip.destination), (0xC0A8_0001, 0xC0A8_00C7));
    assert_eq!(sum_of_pairs(header.view_bits()), 0xFFFF);
    let mut written = [0xFF; 20];
    ip.write(&mut written);
    assert_eq!(written, header);
    assert_eq!(Ipv4::parse(&header[1..]), Err("short"));
    assert_eq!(Ipv4::parse(&[0x65; 20]), Err("version"));

    let segment = [0xC3, 0x50, 0x01, 0xBB, 0, 0, 0, 7, 0, 0, 0, 9, 0x51, 0x12, 0xFF, 0xFF, 0x12, 0x34, 0, 0];
    let tcp = Tcp::parse(&segment);
    assert_eq!((tcp.source, tcp.destination, tcp.sequence, tcp.acknowledged, tcp.words), (50_000, 443, 7, 9, 5));
    assert!(tcp.flags.iter_ones().eq([1, 4, 8]));
    assert_eq!((tcp.window, tcp.sum, tcp.urgent), (0xFFFF, 0x1234, 0));
    assert_eq!(tcp.to_bytes(), segment);

    assert_eq!(crc15(b"123456789".view_bits()), 0x059E);
    let frame = can_frame(0x555, &[1, 2, 0xFF]);
    assert_eq!(frame.len(), 1 + 11 + 3 + 4 + 24 + 15);
    assert_eq!(crc15(frame.as_bitslice()), 0);
    let sent = stuffed(frame.as_bitslice());
    assert_eq!(stuffed(bits![u8, Msb0; 0, 0, 0, 0, 0, 1, 1, 1, 1, 0]), bits![0, 0, 0, 0, 0, 1, 1, 1, 1, 1, 0, 0]);
    assert_eq!(unstuffed(sent.as_bitslice()).as_ref(), Some(&frame));
    assert_eq!(unstuffed(bits![u8, Msb0; 1; 6]), None);
    println!("{} flags {:?}, frame {} bits {:x}, sent {} bits", tcp.sequence, tcp.flags, frame.len(), frame, sent.len());
}

#[test]
fn headers_and_frames_are_read_as_they_were_written() {
    main();
}
