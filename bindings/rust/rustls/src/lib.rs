//! A verifier of rustls that asks a store of pushed certificate revocation behind rustls's own verification, so that a
//! handshake with a revoked certificate fails.
//!
//! Resumed sessions: where a client resumes a TLS session, no certificate is sent and no verifier is asked. A
//! certificate that is revoked since stays accepted until the session ends, which may be a week later (RFC 8446,
//! 4.6.1). rustls's client resumes by itself: [`client_config`] keeps no sessions, so that each handshake asks.

#![deny(missing_docs)]
#![forbid(unsafe_code)]

use clubcard::{Refusal, Refused, Store, Verdict};
use rustls::client::{NoClientSessionStorage, ServerCertVerified, ServerCertVerifier, WebPkiVerifier};
use rustls::{Certificate, ClientConfig, Error, RootCertStore, ServerName};
use std::iter;
use std::sync::Arc;
use std::time::SystemTime;

/// What the error of a handshake says where the certificate is revoked. This rustls has no error of its own for that,
/// and tells the server `bad_certificate`.
pub const REVOKED: &str = "the certificate is revoked";

/// rustls's own verifier, and a store that is asked once it is content. Any number of connections may share one.
pub struct StoreVerifier {
    webpki: WebPkiVerifier,
    roots: Vec<Certificate>,
    store: Store<'static>,
}

/// rustls's own verifier with these roots.
fn webpki_with(roots: &[Certificate]) -> Result<WebPkiVerifier, Error> {
    let mut anchors = RootCertStore::empty();
    for root in roots {
        anchors.add(root).map_err(|error| Error::General(format!("a root isn't read: {error}")))?;
    }
    Ok(WebPkiVerifier::new(anchors, None))
}

/// What a handshake makes of an answer. Good goes on, and revoked ends it. What the store doesn't cover is for the
/// client to settle: here it goes on, as it would without a store. A certificate with timestamps that can't be read
/// ends the handshake.
fn settle(answer: Result<Verdict, Refused>) -> Result<(), Error> {
    match answer {
        Ok(Verdict::Good | Verdict::NotCovered | Verdict::NotEnrolled) => Ok(()),
        Ok(Verdict::Revoked) => Err(Error::InvalidCertificateData(REVOKED.to_string())),
        Err(Refused { refusal: Refusal::CertNoScts, .. }) => Ok(()),
        Err(refused) => Err(Error::InvalidCertificateData(refused.to_string())),
    }
}

impl StoreVerifier {
    /// The verifier that trusts these roots and asks this store.
    ///
    /// # Errors
    ///
    /// Where a root isn't a certificate.
    pub fn new(roots: Vec<Certificate>, store: Store<'static>) -> Result<StoreVerifier, Error> {
        Ok(StoreVerifier { webpki: webpki_with(&roots)?, roots, store })
    }

    /// The issuer's certificate, among those that the server sent and the roots. A server may send what it likes, so
    /// the issuer is the one whose key alone, as a root, verifies the server's certificate.
    fn issuer_of<'a>(
        &'a self,
        cert: &Certificate,
        sent: &'a [Certificate],
        name: &ServerName,
        now: SystemTime,
    ) -> Option<&'a Certificate> {
        sent.iter().chain(&self.roots).find(|issuer| {
            let alone = webpki_with(std::slice::from_ref(*issuer));
            alone.map_or(false, |it| it.verify_server_cert(cert, &[], name, &mut iter::empty(), &[], now).is_ok())
        })
    }
}

impl ServerCertVerifier for StoreVerifier {
    fn verify_server_cert(
        &self,
        cert: &Certificate,
        sent: &[Certificate],
        name: &ServerName,
        scts: &mut dyn Iterator<Item = &[u8]>,
        ocsp_response: &[u8],
        now: SystemTime,
    ) -> Result<ServerCertVerified, Error> {
        let verified = self.webpki.verify_server_cert(cert, sent, name, scts, ocsp_response, now)?;
        // Only the server's own certificate carries timestamps.
        let issuer = self.issuer_of(cert, sent, name, now);
        let issuer = issuer.ok_or_else(|| Error::InvalidCertificateData("no issuer's certificate".to_string()))?;
        settle(self.store.ask_cert(&cert.0, &issuer.0))?;
        Ok(verified)
    }
}

/// A client that verifies by this, and resumes no session.
pub fn client_config(verifier: StoreVerifier) -> ClientConfig {
    let builder = ClientConfig::builder().with_safe_defaults();
    let mut config = builder.with_custom_certificate_verifier(Arc::new(verifier)).with_no_client_auth();
    config.session_storage = Arc::new(NoClientSessionStorage {});
    config.enable_tickets = false;
    config
}

#[cfg(test)]
mod tests {
    use super::*;

    fn refused(refusal: Refusal) -> Result<Verdict, Refused> {
        Err(Refused { refusal, at: 0, field: None })
    }

    #[test]
    fn only_what_is_revoked_or_unreadable_ends_the_handshake() {
        let revoked = Error::InvalidCertificateData(REVOKED.to_string());
        assert_eq!(settle(Ok(Verdict::Revoked)), Err(revoked));
        for verdict in [Verdict::Good, Verdict::NotCovered, Verdict::NotEnrolled] {
            assert_eq!(settle(Ok(verdict)), Ok(()));
        }
        assert_eq!(settle(refused(Refusal::CertNoScts)), Ok(()));
        for refusal in [Refusal::CertMalformed, Refusal::CertBadScts, Refusal::IssuerCertMalformed] {
            assert!(settle(refused(refusal)).is_err());
        }
    }
}
