//! Sums, by the examples of RFCs, and random words.
use net_base::checksum::{checksum, updated_checksum, PartsSum};
use net_base::rand::Rand;

/// RFC 1071, section 3, and RFC 1624, section 4.
#[test]
fn sums() {
    let words = [0x00, 0x01, 0xf2, 0x03, 0xf4, 0xf5, 0xf6, 0xf7];
    assert_eq!((checksum(&words), checksum(&words[..5])), (!0xddf2, !0xe605));
    assert_eq!(updated_checksum(0xdd2f, 0x5555, 0x3285), 0x0000);
    assert_eq!((updated_checksum(0, 0, 1), checksum(&[])), (0xfffe, 0xffff));
    // 0xffff + 0xffff + 1 carries twice.
    assert_eq!(checksum(&[0xff, 0xff, 0xff, 0xff, 0, 1]), 0xfffe);
    // Parts of which two have an odd number of bytes.
    let bytes: Vec<u8> = (0..368).map(|it| (it * 7 % 251) as u8).collect();
    let sum = PartsSum::new().with(&bytes[..5]).with(&bytes[5..364]).with(&bytes[364..]);
    assert_eq!(sum.checksum(), checksum(&bytes));
}

/// Words and ports that follow from a seed.
#[test]
fn random_words() {
    let mut rand = Rand::new(0);
    assert_eq!((rand.rand_u32(), rand.state()), (3, 0x7590_ef39));
    assert_eq!((rand.rand_u32(), rand.state()), (0xfdec_f8a2, 0xc7fe_f67c_5151_a1ae));
    let mut rand = Rand::new(0);
    assert_eq!((rand.rand_u16(), rand.rand_u16()), (3, 1358));
    let mut rand = Rand::new(1);
    assert_eq!((rand.rand_u32(), rand.state()), (0x2efc_ecb1, 0xbb2e_fcec_b1ca_5056));
    assert_eq!((Rand::new(1).rand_u16(), Rand::new(1).rand_source_port()), (49741, 49741));
    // A draw of 1024 or less is no port.
    let mut rand = Rand::new(0);
    assert_eq!((rand.rand_source_port(), rand.rand_u32()), (1358, 1_630_584_515));
    assert_eq!([1 << 31, u32::MAX, 1, 0].map(|bound| Rand::new(0).below(bound)), [1, 2, 0, 0]);
    assert_eq!(Rand::new(112_389).rand_source_port(), 45842);
}
