//! Asking a client for its password by SCRAM-SHA-256, as RFC 5802 and RFC 7677 have it.

use super::say;
use crate::recorded::MESSAGE_MOST;
use anyhow::{bail, ensure, Context, Result};
use net::Stream;
use openssl::base64::{decode_block, encode_block};
use openssl::hash::{hash, MessageDigest};
use openssl::memcmp;
use openssl::pkcs5::pbkdf2_hmac;
use openssl::pkey::PKey;
use openssl::rand::rand_bytes;
use openssl::sha::sha256;
use openssl::sign::Signer;
use openssl::x509::X509;
use pgmsg::backend::{Authentication, Message};
use pgmsg::frontend::SaslInitialResponse;
use pgmsg::scram::{SCRAM_SHA_256 as PLAIN, SCRAM_SHA_256_PLUS as BOUND};
use pgmsg::{Decoder, Next};
use tokio::io::AsyncReadExt;

const ITERATIONS: usize = 4096;
const BINDING: &str = "p=tls-server-end-point";

/// A password that clients are asked for.
pub struct ScramSecret {
    salt: [u8; 16],
    salted: [u8; 32],
}

impl ScramSecret {
    pub fn new(password: &[u8]) -> Result<ScramSecret> {
        let mut login = ScramSecret { salt: [0; 16], salted: [0; 32] };
        rand_bytes(&mut login.salt)?;
        pbkdf2_hmac(password, &login.salt, ITERATIONS, MessageDigest::sha256(), &mut login.salted)?;
        Ok(login)
    }

    /// Asks a client, whose first message was the last that it said. Answers what it said after that.
    pub async fn ask(&self, stream: &mut Stream, mut bytes: Vec<u8>) -> Result<Vec<u8>> {
        let binding = stream.own_certificate().map(|it| end_point(&it)).transpose()?;
        let mechanisms = [BOUND.into(), PLAIN.into()];
        let offered = if binding.is_some() { &mechanisms[..] } else { &mechanisms[1..] };
        ask_for(stream, Authentication::Sasl(offered.into())).await?;
        let body = answer(stream, &mut bytes).await?;
        let initial = SaslInitialResponse::read(&body)?;
        let is_bound = initial.mechanism == BOUND;
        ensure!(is_bound || initial.mechanism == PLAIN, "a mechanism that isn't offered");
        let first = std::str::from_utf8(initial.response.unwrap_or_default().0)?;
        let exchange = ScramExchange::new(first, is_bound, binding)?;
        let server_first = exchange.server_first(&self.salt);
        ask_for(stream, Authentication::SaslContinue((&server_first).into())).await?;
        let body = answer(stream, &mut bytes).await?;
        let last = exchange.server_last(self, std::str::from_utf8(&body)?, &server_first)?;
        ask_for(stream, Authentication::SaslFinal((&last).into())).await?;
        Ok(bytes)
    }
}

async fn ask_for(stream: &mut Stream, authentication: Authentication<'_>) -> Result<()> {
    say(stream, &Message::Authentication(authentication)).await
}

/// Takes the body of an answer to a request for the password off what a client has said, or says next.
async fn answer(stream: &mut Stream, bytes: &mut Vec<u8>) -> Result<Vec<u8>> {
    let mut decoder = Decoder::of_open_client().with_limit(MESSAGE_MOST);
    loop {
        if let Next::Frame(frame) = decoder.next(bytes)? {
            ensure!(
                frame.tag == Some(b'p'),
                "another message than an answer to the request for a password"
            );
            let (body, length) = (frame.body().to_vec(), frame.bytes.len());
            bytes.drain(..length);
            return Ok(body);
        }
        ensure!(
            stream.read_buf(bytes).await? > 0,
            "the client leaves at the request for a password"
        );
    }
}

/// The digest of a certificate to which a channel is bound, as RFC 5929 has it.
fn end_point(certificate: &[u8]) -> Result<Vec<u8>> {
    let signed = X509::from_der(certificate)?.signature_algorithm().object().nid();
    let digest = signed.signature_algorithms().and_then(|it| MessageDigest::from_nid(it.digest));
    let weak = [MessageDigest::md5().type_(), MessageDigest::sha1().type_()];
    let digest =
        digest.filter(|it| !weak.contains(&it.type_())).unwrap_or_else(MessageDigest::sha256);
    Ok(hash(digest, certificate)?.to_vec())
}

/// What both sides have said.
struct ScramExchange {
    client_first: String,
    nonce: String,
    /// What the client has to repeat of the binding.
    binding: Vec<u8>,
}

impl ScramExchange {
    fn new(first: &str, is_bound: bool, binding: Option<Vec<u8>>) -> Result<ScramExchange> {
        let (flag, rest) = first.split_once(',').context("no channel binding is named")?;
        match flag {
            BINDING if is_bound => {}
            "n" if !is_bound => {}
            "y" if !is_bound => {
                ensure!(binding.is_none(), "the client doesn't see that channels can be bound")
            }
            _ => bail!("another channel binding than the mechanism has"),
        }
        let (name, bare) = rest.split_once(',').context("no end of the header")?;
        let theirs = bare.split(',').find_map(|it| it.strip_prefix("r=")).context("no nonce")?;
        let mut ours = [0; 18];
        rand_bytes(&mut ours)?;
        let mut repeated = format!("{flag},{name},").into_bytes();
        if is_bound {
            repeated.extend(binding.unwrap_or_default());
        }
        Ok(ScramExchange {
            client_first: bare.to_owned(),
            nonce: format!("{theirs}{}", encode_block(&ours)),
            binding: repeated,
        })
    }

    fn server_first(&self, salt: &[u8]) -> String {
        format!("r={},s={},i={ITERATIONS}", self.nonce, encode_block(salt))
    }

    /// The last words where the client has proved that it knows the password.
    fn server_last(&self, login: &ScramSecret, last: &str, server_first: &str) -> Result<String> {
        let (before, proof) = last.rsplit_once(",p=").context("no proof")?;
        let expected = format!("c={},r={}", encode_block(&self.binding), self.nonce);
        ensure!(before == expected, "another channel binding or nonce");
        let said = format!("{},{server_first},{before}", self.client_first);
        let client_key = mac(&login.salted, b"Client Key")?;
        let signature = mac(&sha256(&client_key), said.as_bytes())?;
        let proof = decode_block(proof)?;
        let wanted: Vec<u8> =
            client_key.iter().zip(&signature).map(|(one, other)| one ^ other).collect();
        ensure!(
            proof.len() == wanted.len() && memcmp::eq(&proof, &wanted),
            "the password is wrong"
        );
        let server_key = mac(&login.salted, b"Server Key")?;
        Ok(format!("v={}", encode_block(&mac(&server_key, said.as_bytes())?)))
    }
}

/// HMAC with SHA-256.
fn mac(key: &[u8], text: &[u8]) -> Result<Vec<u8>> {
    let key = PKey::hmac(key)?;
    let mut signer = Signer::new(MessageDigest::sha256(), &key)?;
    Ok(signer.sign_oneshot_to_vec(text)?)
}

#[cfg(test)]
mod tests {
    use super::*;

    /// The exchange of RFC 7677, section 3.
    #[test]
    fn the_example_of_the_standard() {
        let mut login = ScramSecret { salt: [0; 16], salted: [0; 32] };
        let salt = decode_block("W22ZaJ0SNY7soEsUEjb6gQ==").expect("base64");
        login.salt.copy_from_slice(&salt[..16]);
        pbkdf2_hmac(b"pencil", &login.salt, ITERATIONS, MessageDigest::sha256(), &mut login.salted)
            .expect("a key");
        let exchange = ScramExchange {
            client_first: "n=user,r=rOprNGfwEbeRWgbNEkqO".to_owned(),
            nonce: "rOprNGfwEbeRWgbNEkqO%hvYDpWUa2RaTCAfuxFIlj)hNlF$k0".to_owned(),
            binding: b"n,,".to_vec(),
        };
        let first = exchange.server_first(&login.salt);
        assert_eq!(first, "r=rOprNGfwEbeRWgbNEkqO%hvYDpWUa2RaTCAfuxFIlj)hNlF$k0,s=W22ZaJ0SNY7soEsUEjb6gQ==,i=4096");
        let last = "c=biws,r=rOprNGfwEbeRWgbNEkqO%hvYDpWUa2RaTCAfuxFIlj)hNlF$k0,\
                    p=dHzbZapWIk4jUhN+Ute9ytag9zjfMHgsqmmiz7AndVQ=";
        let answer = exchange.server_last(&login, last, &first).expect("the right proof");
        assert_eq!(answer, "v=6rriTRBi23WpRR/wtup+mMhUZUn/dB5nLTJRsjl95G4=");
        let wrong = last.replace("dHzb", "dHzc");
        assert!(exchange.server_last(&login, &wrong, &first).is_err());
    }
}
