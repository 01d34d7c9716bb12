-- Two tables, an index, joins, groups, changes and what is left.
CREATE TABLE person(id INTEGER PRIMARY KEY, name TEXT NOT NULL, town TEXT, born INTEGER);
CREATE TABLE entry(id INTEGER PRIMARY KEY, person INTEGER REFERENCES person(id), day INTEGER, amount INTEGER, note TEXT);
BEGIN;
WITH RECURSIVE n(i) AS (VALUES(1) UNION ALL SELECT i + 1 FROM n WHERE i < 60)
INSERT INTO person SELECT i, 'name' || (i * 7919 % 1000), 'town' || (i % 7), 1950 + i * 37 % 60 FROM n;
WITH RECURSIVE n(i) AS (VALUES(1) UNION ALL SELECT i + 1 FROM n WHERE i < 600)
INSERT INTO entry SELECT i, 1 + i * 31 % 60, i * 17 % 365, (i * 7919) % 2001 - 1000, CASE WHEN i % 3 = 0 THEN NULL ELSE hex(i * i) END FROM n;
COMMIT;
CREATE INDEX entry_person ON entry(person, day);
SELECT count(*), sum(amount), min(day), max(day), count(note) FROM entry;
SELECT town, count(*), sum(amount), max(length(note)) FROM person JOIN entry ON entry.person = person.id GROUP BY town HAVING count(*) > 80 ORDER BY 3 DESC;
SELECT name, (SELECT sum(amount) FROM entry WHERE person = p.id AND day < 100) AS early FROM person p WHERE born BETWEEN 1960 AND 1965 ORDER BY early, name;
SELECT id, note FROM entry WHERE note LIKE '%3637%' OR note GLOB '31*4' ORDER BY id LIMIT 8;
UPDATE entry SET amount = amount * 2 WHERE person IN (SELECT id FROM person WHERE town = 'town3');
DELETE FROM entry WHERE day % 5 = 0;
SELECT count(*), sum(amount) FROM entry;
SELECT day, amount, sum(amount) OVER (ORDER BY day, id) FROM entry WHERE person = 7 ORDER BY day, id LIMIT 10;
SELECT group_concat(name, ',') FROM (SELECT name FROM person WHERE id % 9 = 0 ORDER BY name);
PRAGMA integrity_check;
