"""The words of `clubcardctl`: files for the program, made of certificates and CRLs in PEM or DER, and questions."""
