-- The publisher's state. Times are milliseconds since 1970 UTC unless a name says seconds; keys and digests have 32
-- bytes. Files are named by their path below the state's folder.

CREATE TABLE meta (
    key TEXT PRIMARY KEY,
    value TEXT NOT NULL
) WITHOUT ROWID;

-- Each issuer that CONFIG or an entry names, by the SHA-256 of its SubjectPublicKeyInfo.
CREATE TABLE issuer (
    id INTEGER PRIMARY KEY,
    key BLOB NOT NULL UNIQUE,
    enrolled_at INTEGER -- the moment of the last epoch that enrolled it
);

-- Each log that CONFIG named once, by its log id (RFC 6962, 3.2).
CREATE TABLE log (
    id INTEGER PRIMARY KEY,
    key BLOB NOT NULL UNIQUE,
    name TEXT NOT NULL,
    mmd INTEGER NOT NULL, -- the greatest that CONFIG said
    first INTEGER NOT NULL, -- the index of the first entry that is taken
    taken INTEGER NOT NULL, -- the index behind the last entry that is in the spool and verified
    head_time INTEGER, -- the newest verified tree head
    head_size INTEGER,
    head_root BLOB,
    latest INTEGER, -- the greatest time of the entries that are taken, and at most that of the tree head they are of
    bound INTEGER, -- entries below `first` have a time of at most this one; NULL where nothing is known
    bound_head INTEGER, -- the least time of a verified tree head with all those entries
    first_time INTEGER, -- the greatest time of the first entries that are taken, up to FIRST_RUN of spool.py
    compact BLOB -- the hashes of the full subtrees over entries 0 to taken, the greatest first; NULL where those
    -- before `first` aren't known yet
);

-- Files to which entries were appended, as records of a job (kind 3).
CREATE TABLE segment (
    id INTEGER PRIMARY KEY,
    file TEXT NOT NULL UNIQUE,
    length INTEGER NOT NULL
);

-- Entries of logs. One that isn't accepted (epoch NULL) and isn't set aside waits.
CREATE TABLE entry (
    id INTEGER PRIMARY KEY,
    log INTEGER NOT NULL REFERENCES log (id),
    place INTEGER NOT NULL, -- its index in the log
    time INTEGER NOT NULL,
    issuer INTEGER REFERENCES issuer (id), -- NULL where the entry can't be read
    serial BLOB,
    until INTEGER, -- notAfter in seconds since 1970; NULL where the entry has none
    segment INTEGER NOT NULL REFERENCES segment (id),
    start INTEGER NOT NULL, -- where its record begins in the segment
    length INTEGER NOT NULL,
    epoch INTEGER, -- of the job that accepted it; NULL where it waits
    aside TEXT, -- why it is shown to no job: unread, count
    late INTEGER, -- the epoch that first told it as late
    UNIQUE (log, place)
);
-- What waits, with all that chooses among it.
CREATE INDEX entry_waiting ON entry (issuer, log, time, until) WHERE epoch IS NULL AND aside IS NULL;
CREATE INDEX entry_segment ON entry (segment);
-- What is set aside, for the report.
CREATE INDEX entry_aside ON entry (log, aside, place) WHERE aside IS NOT NULL;

-- What the newest chain's ledger holds: each identity of which an entry was accepted.
CREATE TABLE identity (
    issuer INTEGER NOT NULL,
    serial BLOB NOT NULL,
    birth INTEGER NOT NULL, -- the epoch that first accepted an entry of it
    until INTEGER, -- the greatest notAfter of its accepted entries, in seconds since 1970; NULL where one has none
    entry INTEGER NOT NULL, -- one of its accepted entries
    revoked INTEGER, -- the first epoch since its birth that listed it; NULL where none did
    PRIMARY KEY (issuer, serial)
) WITHOUT ROWID;
-- What is revoked, to be counted by issuer.
CREATE INDEX identity_revoked ON identity (issuer) WHERE revoked IS NOT NULL;

-- The newest accepted CRL of each URL of an issuer.
CREATE TABLE crl (
    issuer INTEGER NOT NULL REFERENCES issuer (id),
    url TEXT NOT NULL,
    file TEXT NOT NULL,
    sha256 BLOB NOT NULL,
    number TEXT, -- the CRL number in decimal digits; NULL where it has none
    this_update INTEGER NOT NULL,
    next_update INTEGER,
    fetched INTEGER NOT NULL,
    asked BLOB NOT NULL, -- the digest of what CONFIG said of the issuer by which it was accepted
    PRIMARY KEY (issuer, url)
);

-- The last try to fetch each CRL: what the server said of its file, and why nothing was taken.
CREATE TABLE crl_try (
    issuer INTEGER NOT NULL REFERENCES issuer (id),
    url TEXT NOT NULL,
    tried INTEGER NOT NULL,
    etag TEXT,
    modified TEXT,
    why TEXT, -- NULL where the try brought the newest CRL
    PRIMARY KEY (issuer, url)
);

-- Distribution points that certificates name, whether CONFIG has them or not.
CREATE TABLE point (
    issuer INTEGER NOT NULL REFERENCES issuer (id),
    urls TEXT NOT NULL, -- all that one extension names, as JSON
    log INTEGER NOT NULL REFERENCES log (id),
    place INTEGER NOT NULL, -- the first entry that named them
    until INTEGER, -- the greatest notAfter of such entries, in seconds since 1970; NULL where one has none
    PRIMARY KEY (issuer, urls)
);

-- A chain of parts; each rebase begins the next generation.
CREATE TABLE chain (
    generation INTEGER PRIMARY KEY,
    ledger TEXT, -- of the newest part; NULL once the next generation has begun
    store TEXT, -- what clients have who installed all parts; NULL once the next generation has begun
    store_length INTEGER NOT NULL,
    store_sha256 BLOB NOT NULL,
    held INTEGER NOT NULL, -- for how many epochs waiting entries have held its rebase back
    ended INTEGER -- the moment at which the next generation began
);
CREATE TABLE part (
    generation INTEGER NOT NULL REFERENCES chain (generation),
    place INTEGER NOT NULL, -- from 0
    kind TEXT NOT NULL, -- snapshot or delta
    epoch INTEGER NOT NULL,
    file TEXT NOT NULL,
    length INTEGER NOT NULL,
    sha256 BLOB NOT NULL,
    job TEXT, -- the file of its job; NULL of the part that a rebase made, and once the next generation has begun
    PRIMARY KEY (generation, place)
);
CREATE TABLE part_range (
    generation INTEGER NOT NULL,
    place INTEGER NOT NULL,
    log INTEGER NOT NULL REFERENCES log (id),
    low INTEGER NOT NULL,
    high INTEGER NOT NULL,
    PRIMARY KEY (generation, place, log)
) WITHOUT ROWID;
CREATE TABLE part_issuer (
    generation INTEGER NOT NULL,
    place INTEGER NOT NULL,
    issuer INTEGER NOT NULL REFERENCES issuer (id),
    PRIMARY KEY (generation, place, issuer)
) WITHOUT ROWID;

-- What was published in each epoch.
CREATE TABLE epoch (
    epoch INTEGER PRIMARY KEY,
    moment INTEGER NOT NULL,
    done INTEGER NOT NULL, -- whether the step behind it was taken, which decides on a rebase: 0 or 1
    facts TEXT NOT NULL -- JSON: what chain.EpochRow holds
);
