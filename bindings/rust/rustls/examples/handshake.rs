//! A TLS client that asks a store inside rustls's verification, as `bindings/c/handshake.c` does inside OpenSSL's:
//!
//!     handshake STORE ROOT NAME CHAIN KEY [NAME CHAIN KEY ..]
//!
//! It opens the store once. Then for each NAME it shakes hands, in memory, with a server that sends the certificates of
//! CHAIN, its own first, and has its KEY (PKCS #8); and says how that went. All files but STORE are in DER, the
//! certificates of CHAIN one after the other. ROOT is the root that the client trusts. The status is 0 where each
//! handshake was done, 4 where one failed for a revoked certificate, and else 1.

use clubcard::Store;
use clubcard_rustls::{client_config, StoreVerifier, REVOKED};
use rustls::{Certificate, ClientConfig, ClientConnection, Connection, PrivateKey, ServerConfig, ServerConnection};
use std::error::Error;
use std::process::ExitCode;
use std::sync::Arc;
use std::{env, fs};

/// The certificates that stand one after the other, each with a length of two octets.
fn certificates_in(mut bytes: &[u8]) -> Vec<Certificate> {
    let mut chain = Vec::new();
    while let [0x30, 0x82, high, low, ..] = *bytes {
        let (cert, rest) = bytes.split_at(bytes.len().min(4 + usize::from(u16::from_be_bytes([high, low]))));
        chain.push(Certificate(cert.to_vec()));
        bytes = rest;
    }
    chain
}

/// The server's end of a connection.
fn server_with(chain: Vec<Certificate>, key: PrivateKey) -> Result<Connection, rustls::Error> {
    let builder = ServerConfig::builder().with_safe_defaults().with_no_client_auth();
    let config = builder.with_single_cert(chain, key)?;
    Ok(Connection::from(ServerConnection::new(Arc::new(config))?))
}

/// Brings what the one has written to the other.
fn send(from: &mut Connection, to: &mut Connection) -> Result<(), Box<dyn Error>> {
    let mut written = Vec::new();
    while from.wants_write() {
        from.write_tls(&mut written)?;
    }
    let mut unread = &written[..];
    while !unread.is_empty() {
        to.read_tls(&mut unread)?;
        to.process_new_packets()?;
    }
    Ok(())
}

fn shake_hands(client: &mut Connection, server: &mut Connection) -> Result<(), Box<dyn Error>> {
    while client.is_handshaking() || server.is_handshaking() {
        send(client, server)?;
        send(server, client)?;
    }
    Ok(())
}

/// Shakes hands with the server of this name, and says how that went: the status.
fn connect(config: &Arc<ClientConfig>, name: &str, chain: &str, key: &str) -> Result<u8, Box<dyn Error>> {
    let mut client = Connection::from(ClientConnection::new(config.clone(), name.try_into()?)?);
    let mut server = server_with(certificates_in(&fs::read(chain)?), PrivateKey(fs::read(key)?))?;
    match shake_hands(&mut client, &mut server) {
        Ok(()) => {
            println!("the handshake is done");
            Ok(0)
        }
        Err(error) => {
            println!("the handshake failed: {error}");
            let revoked = rustls::Error::InvalidCertificateData(REVOKED.to_string());
            Ok(if error.downcast_ref() == Some(&revoked) { 4 } else { 1 })
        }
    }
}

fn connect_each(words: &[String]) -> Result<u8, Box<dyn Error>> {
    let (store, root, servers) = match words {
        [store, root, servers @ ..] if servers.len() % 3 == 0 => (store, root, servers),
        _ => return Err("usage: handshake STORE ROOT NAME CHAIN KEY [NAME CHAIN KEY ..]".into()),
    };
    // The verifier keeps the store as long as the program runs.
    let bytes: &'static [u8] = Box::leak(fs::read(store)?.into_boxed_slice());
    let store = Store::open(bytes).map_err(|refused| format!("the store isn't opened: {refused}"))?;
    let config = Arc::new(client_config(StoreVerifier::new(vec![Certificate(fs::read(root)?)], store)?));
    let mut status = 0;
    for server in servers.chunks_exact(3) {
        let went = connect(&config, &server[0], &server[1], &server[2])?;
        if status == 0 || went == 4 {
            status = went;
        }
    }
    Ok(status)
}

fn main() -> ExitCode {
    let words: Vec<String> = env::args().skip(1).collect();
    match connect_each(&words) {
        Ok(status) => ExitCode::from(status),
        Err(error) => {
            println!("{error}");
            ExitCode::FAILURE
        }
    }
}
