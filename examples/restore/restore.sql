-- Copies the rows of a desk's tables from a file that desk doesn't open (fault: NotADesk) into a new desk: those of version 3 of the
-- tables, however they are declared, and nothing else of that file.
--
--   desk script --db new.db </dev/null
--   sqlite3 -bail -cmd "ATTACH 'old.db' AS old" new.db <restore.sql
--   desk audit --db new.db
--
-- A file of version 2 has no `waiver`: leave that statement out. One of version 1 has no `reading` either: use
-- `SELECT number, 1 FROM old.document` in its place.
--
-- If a row can't be in a desk's table, or new.db isn't empty, it ends with an error and copies nothing.
BEGIN;
INSERT INTO main.catalogue (revision, body)
    SELECT revision, body FROM old.catalogue;
INSERT INTO main.rule (revision, term, form, spelled, codes)
    SELECT revision, term, form, spelled, codes FROM old.rule;
INSERT INTO main.document (number, namespace, bytes)
    SELECT number, namespace, bytes FROM old.document;
INSERT INTO main.reading (document, profile)
    SELECT document, profile FROM old.reading;
INSERT INTO main.package (document, id, name, version, concluded, copyright, shipped)
    SELECT document, id, name, version, concluded, copyright, shipped FROM old.package;
INSERT INTO main.extracted (document, reference, body)
    SELECT document, reference, body FROM old.extracted;
INSERT INTO main.conclusion (document, package, expression)
    SELECT document, package, expression FROM old.conclusion;
INSERT INTO main.adoption (document, reference, licence)
    SELECT document, reference, licence FROM old.adoption;
INSERT INTO main.releases (name, place, form, state, revision)
    SELECT name, place, form, state, revision FROM old.releases;
INSERT INTO main.attached (release, document)
    SELECT release, document FROM old.attached;
INSERT INTO main.choice (release, document, package, term)
    SELECT release, document, package, term FROM old.choice;
INSERT INTO main.frozen (release, document, package, term, rule)
    SELECT release, document, package, term, rule FROM old.frozen;
INSERT INTO main.duty (number, release, document, package, term, code, rule, state)
    SELECT number, release, document, package, term, code, rule, state FROM old.duty;
INSERT INTO main.change (duty, step, day, word, body)
    SELECT duty, step, day, word, body FROM old.change;
INSERT INTO main.waiver (duty, step, last_day)
    SELECT duty, step, last_day FROM old.waiver;
COMMIT;
