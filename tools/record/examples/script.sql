-- What docs/RECORDING.md records of sqlite3: a table is filled, indexed, asked, changed and emptied.
CREATE TABLE item (id INTEGER PRIMARY KEY, name TEXT, size INTEGER);
WITH RECURSIVE number(n) AS (SELECT 1 UNION ALL SELECT n + 1 FROM number WHERE n < 400)
INSERT INTO item SELECT n, 'item ' || n, n * 7919 % 1000 FROM number;
CREATE INDEX by_size ON item (size);
SELECT size / 100 AS hundred, count(*), max(name) FROM item GROUP BY hundred ORDER BY hundred;
UPDATE item SET name = name || ' of ' || size WHERE size % 3 = 0;
SELECT a.name, b.name FROM item AS a JOIN item AS b ON a.size = b.size + 1 ORDER BY a.size LIMIT 5;
DELETE FROM item WHERE size < 500;
SELECT count(*), sum(size) FROM item;
