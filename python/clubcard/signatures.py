"""Signatures of certificates and CRLs (RFC 5280, 4.1.1.2; RFC 4055; RFC 5758; RFC 8410), verified by `cryptography`."""

from cryptography.exceptions import InvalidSignature, UnsupportedAlgorithm
from cryptography.hazmat.primitives import hashes, serialization
from cryptography.hazmat.primitives.asymmetric import ec, ed448, ed25519, padding, rsa

from . import der

_HASHES: dict[str, hashes.HashAlgorithm] = {
    "2b0e03021a": hashes.SHA1(),
    "608648016503040204": hashes.SHA224(),
    "608648016503040201": hashes.SHA256(),
    "608648016503040202": hashes.SHA384(),
    "608648016503040203": hashes.SHA512(),
}
_RSA: dict[str, hashes.HashAlgorithm] = {
    "2a864886f70d010105": hashes.SHA1(),
    "2a864886f70d01010e": hashes.SHA224(),
    "2a864886f70d01010b": hashes.SHA256(),
    "2a864886f70d01010c": hashes.SHA384(),
    "2a864886f70d01010d": hashes.SHA512(),
}
_ECDSA: dict[str, hashes.HashAlgorithm] = {
    "2a8648ce3d0401": hashes.SHA1(),
    "2a8648ce3d040301": hashes.SHA224(),
    "2a8648ce3d040302": hashes.SHA256(),
    "2a8648ce3d040303": hashes.SHA384(),
    "2a8648ce3d040304": hashes.SHA512(),
}
_PSS = "2a864886f70d01010a"
# More bytes than any RSA key has, and few enough for every library.
_LONGEST_SALT = 1 << 16
_ED25519 = "2b6570"
_ED448 = "2b6571"


class Unverified(Exception):
    """A signature isn't that of the key, or it can't be told; the text says why."""


def load_key(key: bytes) -> object:
    """The public key of a SubjectPublicKeyInfo in DER, of whichever kind."""
    try:
        return serialization.load_der_public_key(key)
    except (ValueError, UnsupportedAlgorithm) as error:
        raise Unverified(f"the issuer's key isn't of a known kind ({error})") from error


def _hash_of(algorithm: bytes) -> hashes.HashAlgorithm:
    """The hash that the contents of an AlgorithmIdentifier name."""
    oid = der.Walk(algorithm).take(der.OID).contents.hex()
    if oid not in _HASHES:
        raise Unverified(f"the hash with the OID {oid} isn't known")
    return _HASHES[oid]


def _pss(parameters: bytes) -> tuple[padding.PSS, hashes.HashAlgorithm]:
    """The padding and the hash of RSASSA-PSS-params (RFC 4055, 3.1)."""
    digest: hashes.HashAlgorithm = hashes.SHA1()
    mask: hashes.HashAlgorithm = hashes.SHA1()
    salt = 20
    for field in der.elements(der.only(parameters, der.SEQUENCE)):
        if field.tag == 0xA0:
            digest = _hash_of(der.only(field.contents, der.SEQUENCE))
        elif field.tag == 0xA1:
            walk = der.Walk(der.only(field.contents, der.SEQUENCE))
            walk.take(der.OID)
            mask = _hash_of(walk.take(der.SEQUENCE).contents)
        elif field.tag == 0xA2:
            salt = int.from_bytes(der.only(field.contents, der.INTEGER), "big")
            if salt > _LONGEST_SALT:
                raise Unverified("its salt is longer than any key")
    return padding.PSS(padding.MGF1(mask), salt), digest


def _verify_by(key: object, oid: str, parameters: bytes, signature: bytes, signed: bytes) -> None:
    """Verifies a signature by the kind of its key, and raises `InvalidSignature`."""
    if isinstance(key, rsa.RSAPublicKey) and oid == _PSS:
        scheme, digest = _pss(parameters)
        key.verify(signature, signed, scheme, digest)
    elif isinstance(key, rsa.RSAPublicKey) and oid in _RSA:
        key.verify(signature, signed, padding.PKCS1v15(), _RSA[oid])
    elif isinstance(key, ec.EllipticCurvePublicKey) and oid in _ECDSA:
        key.verify(signature, signed, ec.ECDSA(_ECDSA[oid]))
    elif isinstance(key, ed25519.Ed25519PublicKey) and oid == _ED25519:
        key.verify(signature, signed)
    elif isinstance(key, ed448.Ed448PublicKey) and oid == _ED448:
        key.verify(signature, signed)
    else:
        raise Unverified(f"the algorithm with the OID {oid} isn't known, or isn't one of the issuer's key")


def verify(key: bytes, algorithm: bytes, signature: bytes, signed: bytes) -> None:
    """Verifies what is signed by a key. Else `Unverified` is raised.

    key: a SubjectPublicKeyInfo in DER; algorithm: the contents of the AlgorithmIdentifier; signature: the contents of
    the BIT STRING.
    """
    try:
        walk = der.Walk(algorithm)
        oid = walk.take(der.OID).contents.hex()
        if signature[:1] != b"\x00":
            raise Unverified("the signature isn't of whole bytes")
        _verify_by(load_key(key), oid, walk.rest(), signature[1:], signed)
    except InvalidSignature as error:
        raise Unverified("the signature isn't that of the issuer's key") from error
    except (der.Malformed, ValueError, OverflowError, UnsupportedAlgorithm) as error:
        raise Unverified(f"the signature can't be verified ({error})") from error
