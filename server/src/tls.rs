//! TLS, by rustls: what a client says and is told lies in records of it, from its request on.
use crate::channel::Stream;
use rustls::{Certificate, PrivateKey, ServerConfig, ServerConnection};
use rustls_pemfile::Item;
use std::fmt;
use std::fs::File;
use std::io::{self, BufReader, ErrorKind, Read, Write};
use std::path::Path;
use std::sync::Arc;

/// A certificate and its key.
#[derive(Clone)]
pub struct Keys {
    config: Arc<ServerConfig>,
}

impl fmt::Debug for Keys {
    fn fmt(&self, f: &mut fmt::Formatter<'_>) -> fmt::Result {
        f.write_str("Keys")
    }
}

fn items(path: &Path) -> Result<Vec<Item>, String> {
    let told = |fault: io::Error| format!("{}: {}", path.display(), fault);
    rustls_pemfile::read_all(&mut BufReader::new(File::open(path).map_err(told)?)).map_err(told)
}

impl Keys {
    /// Reads both, in PEM. Behind the server's certificate may stand those that sign it.
    pub fn read(certificate: &Path, key: &Path) -> Result<Keys, String> {
        let chain: Vec<Certificate> = items(certificate)?
            .into_iter()
            .filter_map(|it| if let Item::X509Certificate(der) = it { Some(Certificate(der)) } else { None })
            .collect();
        if chain.is_empty() {
            return Err(format!("{} has no certificate in PEM", certificate.display()));
        }
        let key_of = |it| match it {
            Item::RSAKey(der) | Item::PKCS8Key(der) | Item::ECKey(der) => Some(PrivateKey(der)),
            _ => None,
        };
        let found = items(key)?
            .into_iter()
            .find_map(key_of)
            .ok_or_else(|| format!("{} has no private key in PEM", key.display()))?;
        let config = ServerConfig::builder().with_safe_defaults().with_no_client_auth().with_single_cert(chain, found);
        let told = |fault| {
            format!(
                "{} and {} can't be used: {} (a key of another form is converted by openssl pkcs8 -topk8)",
                certificate.display(),
                key.display(),
                fault
            )
        };
        Ok(Keys { config: Arc::new(config.map_err(told)?) })
    }
}

/// What came in the clear behind the client's request, and then what the socket gives.
struct Raw<'a> {
    early: &'a mut Vec<u8>,
    stream: &'a Stream,
}

impl Read for Raw<'_> {
    fn read(&mut self, to: &mut [u8]) -> io::Result<usize> {
        if self.early.is_empty() {
            return self.stream.read(to);
        }
        let length = to.len().min(self.early.len());
        to[..length].copy_from_slice(&self.early[..length]);
        self.early.drain(..length);
        Ok(length)
    }
}

impl Write for Raw<'_> {
    fn write(&mut self, bytes: &[u8]) -> io::Result<usize> {
        self.stream.write(bytes)
    }

    fn flush(&mut self) -> io::Result<()> {
        Ok(())
    }
}

/// A connection's.
pub struct Tls {
    connection: ServerConnection,
    early: Vec<u8>,
}

impl Tls {
    /// The client has asked for it; what it sent behind its request belongs to the handshake, and is read by nobody
    /// else.
    pub fn new(keys: &Keys, early: Vec<u8>) -> Result<Tls, String> {
        let connection = ServerConnection::new(Arc::clone(&keys.config)).map_err(|fault| fault.to_string())?;
        Ok(Tls { connection, early })
    }

    /// What the client says. If what has come holds no whole record, the fault is `Interrupted`, so that the caller
    /// looks at the clock.
    pub fn read(&mut self, stream: &Stream, to: &mut [u8]) -> io::Result<usize> {
        match self.connection.reader().read(to) {
            Err(fault) if fault.kind() == ErrorKind::WouldBlock => (),
            read => return read,
        }
        self.flush(stream)?;
        if self.connection.read_tls(&mut Raw { early: &mut self.early, stream })? == 0 {
            return Ok(0);
        }
        if let Err(fault) = self.connection.process_new_packets() {
            // (the client is told why, if it still listens)
            let _ = self.flush(stream);
            return Err(io::Error::new(ErrorKind::InvalidData, fault));
        }
        self.flush(stream)?;
        match self.connection.reader().read(to) {
            Err(fault) if fault.kind() == ErrorKind::WouldBlock => Err(ErrorKind::Interrupted.into()),
            read => read,
        }
    }

    pub fn write_all(&mut self, stream: &Stream, mut bytes: &[u8]) -> io::Result<()> {
        while !bytes.is_empty() {
            let length = self.connection.writer().write(bytes)?;
            bytes = &bytes[length..];
            self.flush(stream)?;
        }
        Ok(())
    }

    fn flush(&mut self, stream: &Stream) -> io::Result<()> {
        while self.connection.wants_write() {
            self.connection.write_tls(&mut Raw { early: &mut self.early, stream })?;
        }
        Ok(())
    }

    /// Version and cipher, once they are agreed on.
    pub fn agreed(&self) -> Option<(String, String)> {
        let version = format!("{:?}", self.connection.protocol_version()?).replace('_', ".");
        Some((version, format!("{:?}", self.connection.negotiated_cipher_suite()?.suite())))
    }
}
