//! SHAKE256 against published vectors, and against Python's hashlib.
//!
//! The two long vectors were printed by hashlib, since no copy of the published
//! file was at hand. Their first 64 bytes, and the last 32 of the second, were
//! compared with the published values from memory.

mod common;

use common::hex;
use second::shake::{shake256, shake256_parts, Absorb};

/// FIPS 202 example values: the empty message.
const EMPTY: &str = "\
46b9dd2b0ba88d13233b3feb743eeb243fcd52ea62b81b82b50c27646ed5762f\
d75dc4ddd8c0f200cb05019d67b592f6fc821c49479ab48640292eacb3b7c4be\
141e96616fb13957692cc7edd0b45ae3dc07223c8e92937bef84bc0eab862853\
349ec75546f58fb7c2775c38462c5010d846c185c15111e595522a6bcd16cf86\
f3d122109e3b1fdd943b6aec468a2d621a7c06c6a957c62b54dafc3be87567d6\
77231395f6147293b68ceab7a9e0c58d864e8efde4e1b9a46cbe854713672f5c\
aaae314ed9083dab4b099f8e300f01b8650f1f4b1d8fcf3f3cb53fb8e9eb2ea2\
03bdc970f50ae55428a91f7f53ac266b28419c3778a15fd248d339ede785fb7f\
5a1aaa96d313eacc890936c173cdcd0fab882c45755feb3aed96d477ff96390b\
f9a66d1368b208e21f7c10d04a3dbd4e360633e5db4b602601c14cea737db3dc\
f722632cc77851cbdde2aaf0a33a07b373445df490cc8fc1e4160ff118378f11\
f0477de055a81a9eda57a4a2cfb0c83929d310912f729ec6cfa36c6ac6a75837\
143045d791cc85eff5b21932f23861bcf23a52b5da67eaf7baae0f5fb1369db7\
8f3ac45f8c4ac5671d85735cdddb09d2b1e34a1fc066ff4a162cb263d6541274\
ae2fcc865f618abe27c124cd8b074ccd516301b91875824d09958f341ef274bd\
ab0bae316339894304e35877b0c28a9b1fd166c796b9cc258a064a8f57e27f2a";

/// FIPS 202 example values: 1600 bits, each byte 0xa3.
const A3: &str = "\
cd8a920ed141aa0407a22d59288652e9d9f1a7ee0c1e7c1ca699424da84a904d\
2d700caae7396ece96604440577da4f3aa22aeb8857f961c4cd8e06f0ae6610b\
1048a7f64e1074cd629e85ad7566048efc4fb500b486a3309a8f26724c0ed628\
001a1099422468de726f1061d99eb9e93604d5aa7467d4b1bd6484582a384317\
d7f47d750b8f5499512bb85a226c4243556e696f6bd072c5aa2d9b69730244b5\
6853d16970ad817e213e470618178001c9fb56c54fefa5fee67d2da524bb3b0b\
61ef0e9114a92cdbb6cccb98615cfe76e3510dd88d1cc28ff99287512f24bfaf\
a1a76877b6f37198e3a641c68a7c42d45fa7acc10dae5f3cefb7b735f12d4e58\
9f7a456e78c0f5e4c4471fffa5e4fa0514ae974d8c2648513b5db494cea84715\
6d277ad0e141c24c7839064cd08851bc2e7ca109fd4e251c35bb0a04fb05b364\
ff8c4d8b59bc303e25328c09a882e952518e1a8ae0ff265d61c465896973d749\
0499dc639fb8502b39456791b1b6ec5bcc5d9ac36a6df622a070d43fed781f5f\
149f7b62675e7d1a4d6dec48c1c7164586eae06a51208c0b791244d307726505\
c3ad4b26b6822377257aa152037560a739714a3ca79bd605547c9b78dd1f596f\
2d4f1791bc689a0e9b799a37339c04275733740143ef5d2b58b96a363d4e0807\
6a1a9d7846436e4dca5728b6f760eef0ca92bf0be5615e96959d767197a0beeb";

/// Computed with Python's hashlib; see `every_length_about_three_blocks`.
const JOINED: &str = "a956f45d5912ac3eb464b4e6d086b7d64936fac9c32f42b3de6277f17dc5b98d";

#[test]
fn empty_message() {
    let mut out = [0; 512];
    shake256(b"", &mut out);
    assert_eq!(hex(&out), EMPTY);
}

#[test]
fn message_of_1600_bits() {
    let mut out = [0; 512];
    shake256(&[0xa3; 200], &mut out);
    assert_eq!(hex(&out), A3);
}

/// Lengths 0 to 409 pass three block ends, so each way the padding can fall
/// is met. The outputs are of many lengths too.
#[test]
fn every_length_about_three_blocks() {
    let mut outputs = Vec::new();
    for length in 0..410 {
        let message: Vec<u8> = (0..length).map(|i| ((7 * length + i) % 251) as u8).collect();
        let mut out = vec![0; length / 2 + 1];
        shake256(&message, &mut out);
        outputs.extend(out);
    }
    let mut out = [0; 32];
    shake256(&outputs, &mut out);
    assert_eq!(hex(&out), JOINED);
}

#[test]
fn parts_make_no_difference() {
    let message: Vec<u8> = (0..300).map(|i| i as u8).collect();
    let mut whole = [0; 300];
    shake256(&message, &mut whole);
    for cut in 0..=300 {
        let (before, after) = message.split_at(cut);
        let mut joined = [0; 300];
        shake256_parts(&[before, b"", after], &mut joined);
        assert_eq!(joined, whole);

        let mut squeeze = Absorb::new().part(before).part(after).done();
        let (first, last) = joined.split_at_mut(cut);
        first.fill(0);
        last.fill(0);
        squeeze.next(first);
        squeeze.next(last);
        assert_eq!(joined, whole);
    }
}

#[test]
fn no_output_asked() {
    shake256(b"abc", &mut []);
}
