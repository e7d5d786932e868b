-- Of a history that is cut into places: the chain of each, by the place's name. Its rows of `chain` and `part` name no
-- files then, and `places` of `meta` is the plan.
CREATE TABLE IF NOT EXISTS place_chain (
    generation INTEGER NOT NULL REFERENCES chain (generation),
    name TEXT NOT NULL,
    ledger TEXT, -- as in `chain`
    store TEXT,
    store_length INTEGER NOT NULL,
    store_sha256 BLOB NOT NULL,
    PRIMARY KEY (generation, name)
);
CREATE TABLE IF NOT EXISTS place_part (
    generation INTEGER NOT NULL,
    place INTEGER NOT NULL, -- as in `part`
    name TEXT NOT NULL,
    file TEXT NOT NULL,
    length INTEGER NOT NULL,
    sha256 BLOB NOT NULL,
    job TEXT, -- as in `part`
    PRIMARY KEY (generation, place, name)
);
-- The chains of all places, or the one of the whole.
CREATE VIEW IF NOT EXISTS any_chain AS
    SELECT generation, name, ledger, store, store_length, store_sha256 FROM place_chain
    UNION ALL SELECT generation, 'whole', ledger, store, store_length, store_sha256 FROM chain
    WHERE generation NOT IN (SELECT generation FROM place_chain);
CREATE VIEW IF NOT EXISTS any_part AS
    SELECT p.generation, p.place, f.name, p.kind, p.epoch, f.file, f.length, f.sha256, f.job
    FROM part p JOIN place_part f ON f.generation = p.generation AND f.place = p.place
    UNION ALL SELECT generation, place, 'whole', kind, epoch, file, length, sha256, job FROM part
    WHERE generation NOT IN (SELECT generation FROM place_part);
