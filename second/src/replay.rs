//! Reads a vector file as VECTORS.md says, and holds calls to it.

use crate::scheme::{check, make_keys, sign};
use crate::set::*;
use crate::vectors::*;

/// The calls that are held to a file. Lengths of the slices are those lent.
pub trait Calls {
    fn make_keys(&mut self, zeta: &[u8], zeta_prime: &[u8], public: &mut [u8], secret: &mut [u8]) -> Answer;
    fn sign(&mut self, secret: &[u8], message: &[u8], limit: u32, signature: &mut [u8]) -> Answer;
    fn check(&mut self, public: &[u8], signature: &[u8], message: &[u8]) -> Answer;
}

/// The calls of this program.
pub struct Second;

impl Calls for Second {
    fn make_keys(&mut self, zeta: &[u8], zeta_prime: &[u8], public: &mut [u8], secret: &mut [u8]) -> Answer {
        Answer::of(make_keys(zeta, zeta_prime, public, secret).err(), 0)
    }

    fn sign(&mut self, secret: &[u8], message: &[u8], limit: u32, signature: &mut [u8]) -> Answer {
        let answer = sign(secret, message, limit, signature);
        Answer::of(answer.refusal, answer.tries)
    }

    fn check(&mut self, public: &[u8], signature: &[u8], message: &[u8]) -> Answer {
        Answer::of(check(public, signature, message).err(), 0)
    }
}

struct Kept {
    public_key: [u8; PUBLIC_KEY + SPARE],
    secret_key: [u8; SECRET_KEY + SPARE],
    signature: [u8; SIGNATURE + SPARE],
}

/// Reads the whole file. What differs is an error, with the record's number.
pub fn replay(mut file: &[u8], calls: &mut impl Calls) -> Result<Counts, String> {
    let mut kept = Kept {
        public_key: [0; PUBLIC_KEY + SPARE],
        secret_key: [0; SECRET_KEY + SPARE],
        signature: [0; SIGNATURE + SPARE],
    };
    let mut counts = [0; 4];
    let mut number = 0;
    loop {
        let wrong = |what: String| format!("record {number}: {what}");
        let header = Header::read(&mut file).map_err(wrong)?;
        let bytes = take(&mut file, header.bytes).map_err(wrong)?;
        match header.kind {
            END => {
                if header.four != counts.map(|count: u32| count as usize) {
                    return Err(wrong("the counts are not those of the records before it".into()));
                }
                return if file.is_empty() {
                    Ok(counts)
                } else {
                    Err(wrong("something follows the end".into()))
                };
            }
            MAKE_KEYS => keys(&header, bytes, &mut kept, calls),
            SIGN => signing(&header, bytes, &mut kept, calls),
            CHECK => checking(&header, &kept, calls),
            PATCH => patched(&header, bytes, &mut kept),
            kind => Err(format!("there is no kind {kind}")),
        }
        .map_err(wrong)?;
        counts[header.kind as usize - 1] += 1;
        number += 1;
    }
}

fn same(found: Answer, expected: Answer) -> Result<(), String> {
    if found == expected {
        Ok(())
    } else {
        Err(format!("the answer is {found:?}, and {expected:?} was expected"))
    }
}

/// The first bytes of a buffer, as many as the record says.
fn lent(buffer: &[u8], length: usize) -> Result<&[u8], String> {
    buffer.get(..length).ok_or_else(|| format!("length {length} is more than the buffer's room"))
}

fn output(length: usize, full: usize) -> Result<Vec<u8>, String> {
    if length <= full + SPARE {
        Ok(vec![FILL; length])
    } else {
        Err(format!("length {length} is more than the buffer's room"))
    }
}

fn unchanged(output: &[u8]) -> Result<(), String> {
    if output.iter().all(|&byte| byte == FILL) {
        Ok(())
    } else {
        Err("a refused call changed its output".into())
    }
}

/// Holds outputs to the bytes that are expected: whole, or their hash.
fn expected(outputs: &[&[u8]], bytes: &[u8]) -> Result<(), String> {
    let equal = if bytes.len() == DIGEST { digest(outputs) == bytes } else { outputs.concat() == bytes };
    if equal {
        Ok(())
    } else {
        Err("the output is not the one expected".into())
    }
}

fn keys(header: &Header, bytes: &[u8], kept: &mut Kept, calls: &mut impl Calls) -> Result<(), String> {
    let [zeta_length, zeta_prime_length, public_length, secret_length] = header.four;
    if bytes.len() < 2 * SEED {
        return Err("the seeds are missing".into());
    }
    let (mut zeta, mut zeta_prime) = ([0; SEED + SPARE], [0; SEED + SPARE]);
    zeta[..SEED].copy_from_slice(&bytes[..SEED]);
    zeta_prime[..SEED].copy_from_slice(&bytes[SEED..2 * SEED]);
    let mut public = output(public_length, PUBLIC_KEY)?;
    let mut secret = output(secret_length, SECRET_KEY)?;
    let answer = calls.make_keys(
        lent(&zeta, zeta_length)?,
        lent(&zeta_prime, zeta_prime_length)?,
        &mut public,
        &mut secret,
    );
    same(answer, header.answer)?;
    if answer.number != 0 {
        unchanged(&public)?;
        return unchanged(&secret);
    }
    expected(&[&public, &secret], &bytes[2 * SEED..])?;
    kept.public_key[..PUBLIC_KEY].copy_from_slice(&public);
    kept.secret_key[..SECRET_KEY].copy_from_slice(&secret);
    Ok(())
}

fn signing(header: &Header, bytes: &[u8], kept: &mut Kept, calls: &mut impl Calls) -> Result<(), String> {
    let [secret_length, message_length, signature_length, _] = header.four;
    let mut signature = output(signature_length, SIGNATURE)?;
    let answer = calls.sign(
        lent(&kept.secret_key, secret_length)?,
        &message(header.seed, message_length),
        header.limit,
        &mut signature,
    );
    same(answer, header.answer)?;
    if answer.number != 0 {
        return unchanged(&signature);
    }
    expected(&[&signature], bytes)?;
    kept.signature[..SIGNATURE].copy_from_slice(&signature);
    Ok(())
}

fn checking(header: &Header, kept: &Kept, calls: &mut impl Calls) -> Result<(), String> {
    let [public_length, signature_length, message_length, _] = header.four;
    let answer = calls.check(
        lent(&kept.public_key, public_length)?,
        lent(&kept.signature, signature_length)?,
        &message(header.seed, message_length),
    );
    same(answer, header.answer)
}

fn patched(header: &Header, bytes: &[u8], kept: &mut Kept) -> Result<(), String> {
    let [buffer, position, count, _] = header.four;
    let (kept, full) = match buffer {
        1 => (&mut kept.public_key[..], PUBLIC_KEY),
        2 => (&mut kept.secret_key[..], SECRET_KEY),
        5 => (&mut kept.signature[..], SIGNATURE),
        _ => return Err(format!("buffer {buffer} is not kept")),
    };
    if count != bytes.len() || position + count > full {
        return Err("the patch does not lie within its buffer".into());
    }
    for (byte, change) in kept[position..].iter_mut().zip(bytes) {
        *byte ^= change;
    }
    Ok(())
}
