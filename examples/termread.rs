//! The terminal reader for Rust: a safe wrapper over libgateway.a, to be copied. include/termread.h has the same in C.
//!
//! Nothing checks the declarations below against the library's source: tools/link_examples compares the answers that come through
//! them with what the program `termread` prints, and the list of a keeper's file with that of tests/keeper.py.

/// Of which packet an answer is.
#[derive(Clone, Copy, Debug, PartialEq, Eq)]
pub enum Kind {
    Syn,
    SynAck,
}

/// A quirk that a fuzzy answer may tolerate.
#[derive(Clone, Copy, Debug, PartialEq, Eq)]
pub enum Quirk {
    Ecn,
    Df,
    IdNonZero,
    IdZero,
}

/// A set of such quirks, by their bits in a list's record.
#[derive(Clone, Copy, Debug, PartialEq, Eq)]
pub struct Quirks(u8);

impl Quirks {
    pub const ALL: [Quirk; 4] = [Quirk::Ecn, Quirk::Df, Quirk::IdNonZero, Quirk::IdZero];

    pub fn contains(self, quirk: Quirk) -> bool {
        let bit = match quirk {
            Quirk::Ecn => 1,
            Quirk::Df => 2,
            Quirk::IdNonZero => 4,
            Quirk::IdZero => 8,
        };
        self.0 & bit != 0
    }

    pub fn iter(self) -> impl Iterator<Item = Quirk> {
        Self::ALL.into_iter().filter(move |quirk| self.contains(*quirk))
    }
}

/// Why an answer is only fuzzy.
#[derive(Clone, Copy, Debug, PartialEq, Eq)]
pub struct Reason {
    /// The hop distance, if the TTL is out of the record's range.
    pub hops: Option<u8>,
    /// Quirks that the packet shows and the record does not.
    pub added: Quirks,
    /// Quirks of the record that the packet does not show.
    pub missing: Quirks,
}

/// Why a packet has no answer.
#[derive(Clone, Copy, Debug, PartialEq, Eq)]
pub enum PacketRefusal {
    Version,
    TooShort,
    HeaderLength,
    UnsupportedProtocol,
    Fragment,
    TcpTooShort,
    /// Strict mode only: the TCP data offset is under 5, or 4 times it is past the end of the TCP part.
    DataOffset,
    InvalidTcpFlags(u8),
}

/// How a packet is read. The default is the plain mode.
#[derive(Clone, Copy, Debug, Default, PartialEq, Eq)]
pub struct Mode {
    /// Refuses a TCP header whose data offset contradicts it, which the plain mode reads on. Reads the options up to the first damaged
    /// one, which runs past the end or has a length byte of 0 or 1, and shows the quirk `bad`: only records that ask for it fit then. Else
    /// it answers as the plain mode does. The TCP part ends with the packet's bytes: a sound header whose options the capture cut off is
    /// refused too.
    pub strict: bool,
}

impl Mode {
    /// As the library takes it.
    fn bits(self) -> u8 {
        u8::from(self.strict)
    }
}

/// Why a list is of no use.
#[derive(Clone, Copy, Debug, PartialEq, Eq)]
pub enum ListRefusal {
    DoesNotFit,
    /// The index of the first bad record.
    BadRecord(u16),
}

/// The record that an answer names.
#[derive(Clone, Copy, Debug, PartialEq, Eq)]
pub struct Hit {
    pub label: u16,
    /// Which record of the list it is, from 0.
    pub number: u16,
    /// Whether it is generic: found exact only where no specific record of the list is.
    pub generic: bool,
}

/// The answer of a packet. Exact, fuzzy and none are three cases, and a `match` has to name each. `examined` is how many records the search
/// examined: the position, from 1, of the specific exact record that ended it, or the size of the list if none did.
#[derive(Clone, Copy, Debug, PartialEq, Eq)]
pub enum Answer {
    /// A record fits, and nothing was tolerated. A specific one if the list has such, else the first generic one.
    Exact { kind: Kind, hit: Hit, examined: u16 },
    /// A record fits, but for what the reason names.
    Fuzzy { kind: Kind, hit: Hit, reason: Reason, examined: u16 },
    /// No record of the list fits.
    None { kind: Kind, examined: u16 },
    /// A good packet that is neither SYN nor SYN+ACK.
    Nothing,
    Refused(PacketRefusal),
}

/// What was seen of a packet, as p0f's raw line, which stands at the start of the buffer that was lent. Beside any other case than `Line`
/// the buffer is as it was.
#[derive(Clone, Copy, Debug, PartialEq, Eq)]
pub enum RawLine<'a> {
    Line { kind: Kind, line: &'a [u8] },
    /// A good packet that is neither SYN nor SYN+ACK.
    Nothing,
    Refused(PacketRefusal),
    /// The line is longer than the buffer.
    BufferTooShort,
}

/// The most bytes of a raw line, and of a record's: a buffer of so many is never too short.
pub const RAW_LINE_MOST: usize = 432;
pub const RECORD_LINE_MOST: usize = 434;

/// Why a record has no line: beside each the buffer is as it was.
#[derive(Clone, Copy, Debug, PartialEq, Eq)]
pub enum RecordLineRefusal {
    List(ListRefusal),
    /// The list has no record of this index.
    NoSuchRecord,
    /// The line is longer than the buffer.
    BufferTooShort,
}

/// Why a keeper's file has no list. Lines are counted from 1, those that are passed over too; line and offset are told modulo 2^32.
#[derive(Clone, Copy, Debug, PartialEq, Eq)]
pub enum FileRefused {
    /// The first line that is neither passed over nor a signature, and the first byte of it, from 0, at which none goes on: the line's
    /// length if it only ends too soon.
    BadLine { line: u32, offset: u32 },
    /// The line with which there are more than 65,535 signatures.
    TooManySignatures { line: u32 },
    /// The line with which the layouts have more than 32,763 options, counted together.
    TooManyEntries { line: u32 },
}

/// The most bytes of the list of a keeper's file.
pub const LIST_MOST: usize = 1638374;

/// A signature list that was found well formed.
#[derive(Clone, Copy, Debug)]
pub struct List<'a>(&'a [u8]);

impl<'a> List<'a> {
    pub fn new(bytes: &'a [u8]) -> Result<List<'a>, ListRefusal> {
        // SAFETY: pointer and length are those of one slice, which the callee only reads.
        let given = unsafe { termread_check_list(bytes.as_ptr(), bytes.len()) };
        match given.outcome {
            GOOD => Ok(List(bytes)),
            _ => Err(given.list_refusal().unwrap_or_else(|| given.unknown())),
        }
    }

    /// The answer of a packet, from its IP header on. Only a SYN+ACK's depends on the MSS that its peer announced; 0 counts as none.
    pub fn answer(self, packet: &[u8], peer_mss: Option<u16>) -> Answer {
        let peer = peer_mss.unwrap_or(0);
        // SAFETY: as above, for two slices.
        let given = unsafe {
            termread_answer_checked(packet.as_ptr(), packet.len(), peer, self.0.as_ptr(), self.0.len())
        };
        given.answer().unwrap_or_else(|| given.unknown())
    }

    /// The same in a mode.
    pub fn answer_in(self, packet: &[u8], peer_mss: Option<u16>, mode: Mode) -> Answer {
        let (peer, mode) = (peer_mss.unwrap_or(0), mode.bits());
        // SAFETY: as above.
        let given = unsafe {
            termread_answer_checked_in(packet.as_ptr(), packet.len(), peer, self.0.as_ptr(), self.0.len(), mode)
        };
        given.answer().unwrap_or_else(|| given.unknown())
    }
}

/// The answer of a packet against a list that is checked anew.
pub fn answer(packet: &[u8], peer_mss: Option<u16>, list: &[u8]) -> Result<Answer, ListRefusal> {
    let peer = peer_mss.unwrap_or(0);
    // SAFETY: as above.
    let given = unsafe { termread_answer(packet.as_ptr(), packet.len(), peer, list.as_ptr(), list.len()) };
    given.answer_or_list_refusal()
}

/// The same in a mode.
pub fn answer_in(packet: &[u8], peer_mss: Option<u16>, list: &[u8], mode: Mode) -> Result<Answer, ListRefusal> {
    let (peer, mode) = (peer_mss.unwrap_or(0), mode.bits());
    // SAFETY: as above.
    let given = unsafe { termread_answer_in(packet.as_ptr(), packet.len(), peer, list.as_ptr(), list.len(), mode) };
    given.answer_or_list_refusal()
}

/// What was seen of a packet, as p0f's raw line, written into the buffer. The peer's MSS does not change it.
pub fn raw_line<'a>(buffer: &'a mut [u8], packet: &[u8], peer_mss: Option<u16>) -> RawLine<'a> {
    let peer = peer_mss.unwrap_or(0);
    // SAFETY: as above; the buffer is lent to be written, to no one else.
    let given = unsafe { termread_raw_line(buffer.as_mut_ptr(), buffer.len(), packet.as_ptr(), packet.len(), peer) };
    given.raw_line(buffer).unwrap_or_else(|| given.unknown())
}

/// The same in a mode.
pub fn raw_line_in<'a>(buffer: &'a mut [u8], packet: &[u8], peer_mss: Option<u16>, mode: Mode) -> RawLine<'a> {
    let (peer, mode) = (peer_mss.unwrap_or(0), mode.bits());
    // SAFETY: as above.
    let given = unsafe { termread_raw_line_in(buffer.as_mut_ptr(), buffer.len(), packet.as_ptr(), packet.len(), peer, mode) };
    given.raw_line(buffer).unwrap_or_else(|| given.unknown())
}

/// A record of a list, counted from 0, as its signature line, written into the buffer. The list is checked each time.
pub fn record_line<'a>(buffer: &'a mut [u8], list: &[u8], index: usize) -> Result<&'a [u8], RecordLineRefusal> {
    // SAFETY: as above.
    let given = unsafe { termread_record_line(buffer.as_mut_ptr(), buffer.len(), list.as_ptr(), list.len(), index) };
    given.record_line(buffer).unwrap_or_else(|| given.unknown())
}

/// The signature list that a keeper's file says (docs/FORMATS.md). It is well formed: `List::new` does not refuse it.
pub fn compile_list(file: &[u8]) -> Result<Vec<u8>, FileRefused> {
    // No list has more bytes than 8 and twice its file's, so that the buffer is never too short.
    let mut list = vec![0; file.len().saturating_mul(2).saturating_add(8).min(LIST_MOST)];
    // SAFETY: as above.
    let given = unsafe { termread_compile_list(list.as_mut_ptr(), list.len(), file.as_ptr(), file.len()) };
    match given.refused() {
        Some(refused) => Err(refused),
        None => {
            list.truncate(given.length as usize);
            Ok(list)
        }
    }
}

/// The answer as the library gives it: crates/gateway/specs/Parts.antt, and in C `termread_result`. Nothing reads `tolerated`, which is 0
/// and kept for what is to come.
#[repr(C)]
#[derive(Clone, Copy, Debug)]
#[allow(dead_code)]
struct Given {
    outcome: u8,
    kind: u8,
    refusal: u8,
    tolerated: u8,
    label: u16,
    number: u16,
    examined: u16,
    value: u16,
    added: u8,
    missing: u8,
    hops: u8,
    marks: u8,
}

const _: () = assert!(std::mem::size_of::<Given>() == 16);

const GOOD: u8 = 0;
const EXACT: u8 = 1;
const FUZZY: u8 = 2;
const NONE: u8 = 3;
const NOTHING: u8 = 4;
const REFUSED: u8 = 5;
const LINE: u8 = 6;
const BUFFER_TOO_SHORT: u8 = 15;
const NO_SUCH_RECORD: u8 = 23;
const OUT_OF_RANGE: u8 = 1;
const GENERIC: u8 = 4;

impl Given {
    fn kind(self) -> Option<Kind> {
        match self.kind {
            1 => Some(Kind::Syn),
            2 => Some(Kind::SynAck),
            _ => None,
        }
    }

    fn hit(self) -> Hit {
        Hit { label: self.label, number: self.number, generic: self.marks & GENERIC != 0 }
    }

    fn reason(self) -> Reason {
        Reason {
            hops: (self.marks & OUT_OF_RANGE != 0).then_some(self.hops),
            added: Quirks(self.added),
            missing: Quirks(self.missing),
        }
    }

    fn packet_refusal(self) -> Option<PacketRefusal> {
        Some(match self.refusal {
            1 => PacketRefusal::Version,
            2 => PacketRefusal::TooShort,
            3 => PacketRefusal::HeaderLength,
            4 => PacketRefusal::UnsupportedProtocol,
            5 => PacketRefusal::Fragment,
            6 => PacketRefusal::TcpTooShort,
            7 => PacketRefusal::InvalidTcpFlags(self.value as u8),
            14 => PacketRefusal::DataOffset,
            _ => return None,
        })
    }

    fn list_refusal(self) -> Option<ListRefusal> {
        match (self.outcome, self.refusal) {
            (REFUSED, 9) => Some(ListRefusal::DoesNotFit),
            (REFUSED, 10) => Some(ListRefusal::BadRecord(self.value)),
            _ => None,
        }
    }

    fn answer(self) -> Option<Answer> {
        Some(match self.outcome {
            EXACT => Answer::Exact { kind: self.kind()?, hit: self.hit(), examined: self.examined },
            FUZZY => Answer::Fuzzy { kind: self.kind()?, hit: self.hit(), reason: self.reason(), examined: self.examined },
            NONE => Answer::None { kind: self.kind()?, examined: self.examined },
            NOTHING => Answer::Nothing,
            REFUSED => Answer::Refused(self.packet_refusal()?),
            _ => return None,
        })
    }

    fn answer_or_list_refusal(self) -> Result<Answer, ListRefusal> {
        match self.list_refusal() {
            Some(refusal) => Err(refusal),
            None => Ok(self.answer().unwrap_or_else(|| self.unknown())),
        }
    }

    /// The line at the buffer's start.
    fn line(self, buffer: &[u8]) -> Option<&[u8]> {
        buffer.get(..usize::from(self.value))
    }

    fn raw_line(self, buffer: &[u8]) -> Option<RawLine<'_>> {
        Some(match (self.outcome, self.refusal) {
            (LINE, _) => RawLine::Line { kind: self.kind()?, line: self.line(buffer)? },
            (NOTHING, _) => RawLine::Nothing,
            (REFUSED, BUFFER_TOO_SHORT) => RawLine::BufferTooShort,
            (REFUSED, _) => RawLine::Refused(self.packet_refusal()?),
            _ => return None,
        })
    }

    fn record_line(self, buffer: &[u8]) -> Option<Result<&[u8], RecordLineRefusal>> {
        Some(match (self.outcome, self.refusal) {
            (LINE, _) => Ok(self.line(buffer)?),
            (REFUSED, BUFFER_TOO_SHORT) => Err(RecordLineRefusal::BufferTooShort),
            (REFUSED, NO_SUCH_RECORD) => Err(RecordLineRefusal::NoSuchRecord),
            _ => Err(RecordLineRefusal::List(self.list_refusal()?)),
        })
    }

    /// The library promises that this is not reached; it would mean that another library was linked.
    fn unknown(self) -> ! {
        panic!("the linked terminal reader gave an unknown answer: {self:?}")
    }
}

/// What comes of a keeper's file, as the library gives it: in C `termread_compiled`.
#[repr(C)]
#[derive(Clone, Copy, Debug)]
struct GivenCompiled {
    length: u32,
    line: u32,
    offset: u32,
    refusal: u32,
}

const _: () = assert!(std::mem::size_of::<GivenCompiled>() == 16);

impl GivenCompiled {
    fn refused(self) -> Option<FileRefused> {
        match self.refusal {
            0 => None,
            13 => Some(FileRefused::BadLine { line: self.line, offset: self.offset }),
            24 => Some(FileRefused::TooManySignatures { line: self.line }),
            25 => Some(FileRefused::TooManyEntries { line: self.line }),
            // The library promises that this is not reached; it would mean that another library was linked.
            _ => panic!("the linked terminal reader gave an unknown answer: {self:?}"),
        }
    }
}

// A slice goes as its pointer and its length.
extern "C" {
    fn termread_check_list(list: *const u8, list_length: usize) -> Given;
    fn termread_answer_checked(
        packet: *const u8,
        packet_length: usize,
        peer_mss: u16,
        list: *const u8,
        list_length: usize,
    ) -> Given;
    fn termread_answer(
        packet: *const u8,
        packet_length: usize,
        peer_mss: u16,
        list: *const u8,
        list_length: usize,
    ) -> Given;
    fn termread_answer_checked_in(
        packet: *const u8,
        packet_length: usize,
        peer_mss: u16,
        list: *const u8,
        list_length: usize,
        mode: u8,
    ) -> Given;
    fn termread_answer_in(
        packet: *const u8,
        packet_length: usize,
        peer_mss: u16,
        list: *const u8,
        list_length: usize,
        mode: u8,
    ) -> Given;
    fn termread_raw_line(
        buffer: *mut u8,
        buffer_length: usize,
        packet: *const u8,
        packet_length: usize,
        peer_mss: u16,
    ) -> Given;
    fn termread_raw_line_in(
        buffer: *mut u8,
        buffer_length: usize,
        packet: *const u8,
        packet_length: usize,
        peer_mss: u16,
        mode: u8,
    ) -> Given;
    fn termread_record_line(
        buffer: *mut u8,
        buffer_length: usize,
        list: *const u8,
        list_length: usize,
        index: usize,
    ) -> Given;
    fn termread_compile_list(
        buffer: *mut u8,
        buffer_length: usize,
        file: *const u8,
        file_length: usize,
    ) -> GivenCompiled;
}
