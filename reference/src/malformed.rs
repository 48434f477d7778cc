//! Lines that say no call, which end their list.

use crate::random::Random;

const FIXED: &[&[u8]] = &[
    b" ", b"load", b"load ", b"open", b"open ", b"deliver", b"deliver 0", b"deliver 0 ", b"deliver 0 0", b"deliver 0 0 ",
    b"withdraw", b"withdraw ", b"verdict ", b" verdict", b"verdict\r", b"\r", b"\t", b"\0",
    b"Verdict", b"VERDICT", b"verdicts", b"verdic", b"verdict 0", b"verdict -", b"judge",
    b"open -", b"open -1", b"open +1", b"open 0x1", b"open 1.", b"open 1 ", b"open  1",
    b"open 1 1", b"open\t1", b"open 1\r", b"open 18446744073709551616", b"open one",
    b"open 99999999999999999999", b"open 000000000000000000001", b"open 36893488147419103233",
    b"open 184467440737095516150", b"deliver 0 0 0", b"deliver 0 0 000", b"deliver 0 0 0g",
    b"deliver 0 0 --", b"deliver 0 0 -00", b"deliver 0 0 00-", b"deliver 0 0 00 00", b"deliver  0 0 00",
    b"deliver 0  0 00", b"deliver 0 0  00", b"deliver 0  00", b"deliver - 0 00", b"deliver 00", b"deliver 0 00",
    b"deliver 0 -", b"deliver 0 0 00 ", b"deliver 0 0 -\r", b"deliver 18446744073709551616 0 -",
    b"deliver 0 4294967296 00", b"deliver 0 4294967296 -", b"deliver 0 18446744073709551615 00",
    b"deliver 0 18446744073709551616 00", b"deliver 0 99999999999999999999 00", b"deliver 0 - 00",
    b"deliver 0 -1 00", b"deliver 0 +1 00", b"deliver 0 a 00", b"deliver 0 000000000000000000001 00",
    b"deliver 0 0 0x00", b"deliver 0 0 0:", b"deliver 0 0 0@", b"deliver 0 0 0`", b"deliver 0 0 0G",
    b"deliver 0 0 /0", b"deliver 0 0: 00", b"deliver 0 0/ 00", b"withdraw 0 0", b"withdraw a",
    b"withdraw 0/", b"withdraw 0:", b"withdraw 0\0", b"load --", b"load - ", b"load -\0",
    b"load 0", b"load 00 00", b"load zz", b"load\xA000", b"\xFF\xFE", b"load \xC3\xA9",
    b"withdraw \xD9\xA0", b"loa", b"loadd -", b"open1", b"deliver0 -", b"verdict\0", b"#", b"\x1A",
    b"install", b"install ", b"install -", b"install 0", b"install 00", b"install 0302", b"install 00 00",
    b"diagnose ", b"diagnosed", b"diagnose 0", b"Diagnose", b"locate", b"locate ", b"locate 0", b"locate 0 ", b"locate 0 0",
    b"locate 0 0g", b"locate  0 00", b"locate 0  00", b"locate 0 00 ", b"locate 0 0 00", b"locate - 00", b"locate 0 --",
    b"locate 18446744073709551616 00", b"locate 000000000000000000001 00", b"locates 0 00",
    b"Install 00", b"instal -", b"install- ", b"install\t-", b"installs -", b"read -", b"read 00",
];

/// A line that is most likely malformed, without a line feed: one of those above, a number with many
/// zeros, or one of the given lines with a byte changed, put in or left out.
pub fn malformed(r: &mut Random, lines: &[Vec<u8>]) -> Option<Vec<u8>> {
    if lines.is_empty() || r.one_in(2) {
        return Some(r.pick(FIXED).to_vec());
    }
    if r.one_in(20) {
        let zeros = r.range(20, 5000);
        return Some(format!("open {:0>zeros$}1", "").into_bytes());
    }
    let mut line = lines[r.below(lines.len())].clone();
    if line.is_empty() || line.len() > 3000 && !r.one_in(10) {
        return None;
    }
    let at = r.below(line.len());
    let byte = r.pick(b" -09afAFgG\r\t\0\x7F\x80\xFFdv");
    match r.below(4) {
        0 => line[at] = byte,
        1 => line.insert(at, byte),
        2 => line.push(byte),
        _ if line.len() > 1 => {
            line.remove(at);
        }
        _ => line[0] = byte,
    }
    Some(line)
}
