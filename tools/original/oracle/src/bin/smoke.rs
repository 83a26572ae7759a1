//! The whole example of document 01 and some of its values, asked of the original.

use oracle::*;

const A: [u8; 44] = [
    0x45, 0, 0, 0x2c, 0, 0, 0x40, 0, 0x40, 6, 0, 0, 0, 0, 0, 0, 0, 0, 0, 0, //
    0, 1, 0, 2, 0, 0, 0, 1, 0, 0, 0, 0, 0x60, 2, 0x16, 0xd0, 0, 0, 0, 0, 2, 4, 5, 0xb4,
];

/// Any version, Value 64, MSS any, window MSS x 4, scale any, layout MSS, quirks 0x2, payload empty.
const RECORD: [u8; 24] = [0, 0, 64, 0, 0, 0, 0, 0, 3, 0, 4, 0, 0, 0, 0, 0, 0, 2, 0, 0, 1, 0, 0, 7];

fn main() {
    let Observed::Syn(a) = observe(&A, None) else { panic!("packet A is a SYN") };
    assert_eq!((a.mss, a.wsize, a.quirks.bits()), (Some(1460), 5840, 0x2));
    assert_eq!(a.window_multiplier(), Some(WindowMultiplier { multiple: 4, of_mtu: false }));
    assert_eq!(a.olayout, [TcpOption::Mss]);
    println!("A: syn {a}");

    let mut b = A;
    b[8] = 0x1c;
    let Observed::Syn(b) = observe(&b, None) else { panic!("packet B is a SYN") };
    let signature = bytes::signature_of(&RECORD, &[2, 0]).expect("the record is well formed");
    let (fit_a, fit_b) = (fit(&signature, &a), fit(&signature, &b));
    assert_eq!(fit_a, Some(SignatureFit::Exact));
    assert!(
        matches!(&fit_b, Some(SignatureFit::Fuzzy(r)) if r.implausible_hop_distance == Some(36))
    );
    assert_eq!(observe(&[0x45, 0, 0], None), Observed::Refused(Refusal::Other));
    println!("A fits: {fit_a:?}; B fits: {fit_b:?}");

    let mut answer = A;
    answer[33] = 0x12; // SYN+ACK
    answer[34..36].copy_from_slice(&24u16.to_be_bytes());
    let Observed::SynAck(answer) = observe(&answer, Some(12)) else { panic!("a SYN+ACK") };
    assert_eq!(answer.peer_mss, Some(12));
    assert_eq!(answer.window_multiplier(), Some(WindowMultiplier { multiple: 2, of_mtu: false }));
    assert!(parse_options(&[2, 4, 5]).malformed);
    assert_eq!(option_length(&A), Some(0));
    let mut record = [0; 24];
    let text =
        parse_signature("*:64:0:*:mss*4,*:mss:df:0").expect("the example's record as a line");
    bytes::put_signature(&mut record, &mut [0; 80], &text).expect("a record holds it");
    assert_eq!(record[..22], RECORD[..22]);
    assert_eq!(read_line(b"*:64:0:*:*,*::df:0"), LineRead::Refused);
    assert_eq!(read_line(b"*:64:0:*:*,*:\xff:df:0"), LineRead::NotText);
    let LineRead::Read(named) = read_line(b"*:64:0:*:*,*:?2,?256::0") else {
        panic!("the original reads it")
    };
    assert_eq!(named.olayout, [TcpOption::Unknown(2), TcpOption::Unknown(0)]);
    println!("SYN+ACK with peer MSS 12: synack {answer}");
    let (mut seen, mut stated) = (String::new(), String::new());
    write_observation(&mut seen, &a).expect("a String takes all");
    write_signature(&mut stated, &signature).expect("a String takes all");
    assert_eq!((&seen[..], &stated[..]), ("4:64+0:0:1460:mss*4,*:mss:df:0", "*:64:0:*:mss*4,*:mss:df:0"));
}
