//! How a client proves who it is.
use crate::channel::{Channel, End};
use crate::packets::{self, Login};
use sha1::{Digest, Sha1};
use sha2::Sha256;
use std::fs::File;
use std::io::{self, Read};

pub const NATIVE: &str = "mysql_native_password";
pub const SHA2: &str = "caching_sha2_password";

/// Who is let in. Where there is no account, everybody is.
#[derive(Clone, Debug)]
pub struct Account {
    pub user: Vec<u8>,
    pub password: Vec<u8>,
}

/// 20 bytes that nobody can foresee, none of them 0, since clients read them as a text.
pub fn scramble() -> io::Result<[u8; 20]> {
    let mut bytes = [0; 20];
    File::open("/dev/urandom")?.read_exact(&mut bytes)?;
    bytes.iter_mut().for_each(|byte| *byte = 1 + *byte % 126);
    Ok(bytes)
}

fn sha1(message: &[u8]) -> [u8; 20] {
    Sha1::digest(message).into()
}

fn sha256(message: &[u8]) -> [u8; 32] {
    Sha256::digest(message).into()
}

fn masked<const N: usize>(one: [u8; N], other: [u8; N]) -> Vec<u8> {
    one.iter().zip(other).map(|(one, other)| one ^ other).collect()
}

/// What a client that knows the password answers to the scramble.
pub fn native_proof(password: &[u8], scramble: &[u8; 20]) -> Vec<u8> {
    if password.is_empty() {
        return Vec::new();
    }
    let once = sha1(password);
    masked(once, sha1(&[&scramble[..], &sha1(&once)].concat()))
}

/// The same by caching_sha2_password.
pub fn sha2_proof(password: &[u8], scramble: &[u8; 20]) -> Vec<u8> {
    if password.is_empty() {
        return Vec::new();
    }
    let once = sha256(password);
    masked(once, sha256(&[&sha256(&once)[..], scramble].concat()))
}

/// Whether two texts are equal, in a time that tells nothing of where they differ.
fn is_equal(one: &[u8], other: &[u8]) -> bool {
    one.len() == other.len() && one.iter().zip(other).fold(0, |found, (one, other)| found | (one ^ other)) == 0
}

/// Whether the client may come in, whom the greeting named a plugin. It may be asked for another proof, which is heard
/// here.
pub fn is_right(
    channel: &mut Channel,
    login: &Login,
    account: Option<&Account>,
    greeted: &str,
    scramble: &[u8; 20],
) -> Result<bool, End> {
    let fits = |proof: &[u8], right: fn(&[u8], &[u8; 20]) -> Vec<u8>| {
        account.map_or(true, |it| is_equal(&login.user, &it.user) && is_equal(proof, &right(&it.password, scramble)))
    };
    if login.plugin == SHA2.as_bytes() && login.proof.len() == 32 {
        let is_right = fits(&login.proof, sha2_proof);
        if is_right {
            // The fast path: the server needs no more, and says so before its OK. Clients wait for that, also where
            // anybody may come in.
            channel.out.packet(|it| it.extend([1, 3]));
        }
        return Ok(is_right);
    }
    let mut proof = login.proof.clone();
    if needs_other(login, account.is_some(), greeted) {
        channel.out.packet(|it| packets::other_plugin(it, NATIVE, scramble));
        channel.send()?;
        channel.receive(&mut proof)?;
    }
    Ok(fits(&proof, native_proof))
}

/// Whether a client is asked for a native proof. One that uses another plugin than the greeting named sends nothing at
/// first, and waits for a scramble; no account has an empty password, so nothing is never a proof.
fn needs_other(login: &Login, has_account: bool, greeted: &str) -> bool {
    let is_native = login.plugin == NATIVE.as_bytes();
    let waits = login.proof.is_empty() && (has_account || login.plugin != greeted.as_bytes());
    !login.plugin.is_empty() && (waits || has_account && !is_native)
}

#[cfg(test)]
mod tests {
    use super::*;

    /// A server that knows but the hash of the hash takes the mask off the proof, and hashes what is left.
    #[test]
    fn a_proof_is_of_the_password() {
        let mut scramble = [0; 20];
        scramble.iter_mut().enumerate().for_each(|(index, byte)| *byte = index as u8 + 1);
        let stored = sha1(&sha1(b"secret"));
        for password in [&b"secret"[..], b"Secret"] {
            let mask = sha1(&[&scramble[..], &stored].concat());
            let once: Vec<u8> =
                native_proof(password, &scramble).iter().zip(mask).map(|(one, other)| one ^ other).collect();
            assert_eq!(sha1(&once) == stored, password == b"secret");
            let stored = sha256(&sha256(b"secret"));
            let mask = sha256(&[&stored[..], &scramble].concat());
            let once: Vec<u8> =
                sha2_proof(password, &scramble).iter().zip(mask).map(|(one, other)| one ^ other).collect();
            assert_eq!(sha256(&once) == stored, password == b"secret");
        }
        assert!(native_proof(b"", &scramble).is_empty() && sha2_proof(b"", &scramble).is_empty());
        assert!(is_equal(b"a", b"a") && !is_equal(b"a", b"b") && !is_equal(b"a", b""));
    }

    /// By plugin, proof, whether there is an account, and the greeting's plugin.
    #[test]
    fn who_is_asked_for_another_proof() {
        let asked = |plugin: &str, proof: &[u8], has_account, greeted| {
            let login = Login {
                can: 0,
                user: Vec::new(),
                proof: proof.to_vec(),
                database: Vec::new(),
                plugin: plugin.as_bytes().to_vec(),
            };
            needs_other(&login, has_account, greeted)
        };
        for greeted in [NATIVE, SHA2] {
            for has_account in [false, true] {
                assert!(!asked("", b"", has_account, greeted) && !asked("", b"p", has_account, greeted));
                assert!(!asked(NATIVE, b"p", has_account, greeted));
                assert_eq!(asked(NATIVE, b"", has_account, greeted), has_account || greeted == SHA2);
                assert_eq!(asked(SHA2, b"", has_account, greeted), has_account || greeted == NATIVE);
                assert_eq!(asked("dialog", b"p", has_account, greeted), has_account);
                assert!(asked("dialog", b"", has_account, greeted));
            }
        }
    }

    #[test]
    fn scrambles_differ_and_have_no_zero() {
        let (one, other) = (scramble().unwrap(), scramble().unwrap());
        assert_ne!(one, other);
        assert!(one.iter().all(|byte| (1..127).contains(byte)));
    }
}
