// The package clubcard: asks a store of pushed certificate revocation through the library for C. It needs no other module.
module clubcard

go 1.19
