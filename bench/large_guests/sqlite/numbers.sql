-- Numbers with a fraction, texts, a trigger, a view, a unique index and what breaks it.
CREATE TABLE reading(at INTEGER PRIMARY KEY, value REAL);
CREATE TABLE log(what TEXT);
CREATE TRIGGER high AFTER INSERT ON reading WHEN new.value > 95 BEGIN INSERT INTO log VALUES (printf('%d has %.3f', new.at, new.value)); END;
WITH RECURSIVE n(i, x) AS (VALUES(1, 12.5) UNION ALL SELECT i + 1, (x * 75.25 + 0.125) - 100 * CAST((x * 75.25 + 0.125) / 100 AS INTEGER) FROM n WHERE i < 400)
INSERT INTO reading SELECT i, x FROM n;
CREATE VIEW tens AS SELECT at / 10 AS ten, avg(value) AS mean, min(value) AS low, max(value) AS high FROM reading GROUP BY at / 10;
SELECT ten, round(mean, 6), round(low, 4), round(high, 4) FROM tens WHERE high - low > 90 ORDER BY ten;
SELECT * FROM log ORDER BY what LIMIT 5;
SELECT count(*), total(value), avg(value) FROM reading;
SELECT 1e300 * 1e10, 1.0 / 3, 7 / 2, -7 % 3, 5 & 3 | 8, 1 << 40, 9223372036854775807 + 1, abs(-3.25), round(2.5), CAST('12.5e2x' AS REAL);
SELECT upper('abc'), substr('machine', 3, 2), replace('aXbX', 'X', '--'), instr('abcdef', 'cd'), trim('  x '), quote('it''s'), typeof(1.0), hex(zeroblob(3)), unicode('€');
CREATE TABLE word(w TEXT UNIQUE, n INTEGER CHECK (n > 0));
INSERT INTO word VALUES ('one', 1), ('two', 2), ('three', 3);
INSERT INTO word VALUES ('two', 9) ON CONFLICT(w) DO UPDATE SET n = n + excluded.n;
INSERT OR IGNORE INTO word VALUES ('one', 5);
SELECT w, n FROM word ORDER BY w COLLATE NOCASE DESC;
SELECT w FROM word EXCEPT SELECT 'two' INTERSECT SELECT 'one' UNION SELECT 'four';
INSERT INTO word VALUES ('four', 0);
