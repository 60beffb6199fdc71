-- Checks a certificate of levels in plain SQL: the verdict of `kcore check`, in any engine that holds three tables.
-- It runs as it is in SQLite, DuckDB, PostgreSQL and Spark SQL.
--
--   edges (u, v)              each edge once, u < v
--   levels (vertex, level)    each vertex once
--   thresholds (level, .., most, least, ..)   as `thresholds.py VERTICES [PROFILE]` writes them
--
-- All of these columns are whole numbers; they are cast, since an import of CSV may have made them texts.
-- No row means certified: the coreness of each vertex is at least `low` and at most `high` of its level in
-- `thresholds`. Otherwise there is one row, `problem` and `vertex`: a table that isn't of this form (malformed), or the
-- least vertex that breaks an invariant, and which one.
-- A vertex needs its own edges and its neighbours' levels alone, so the work is one join along the edges.
WITH pairs AS (
  SELECT CAST(u AS INTEGER) AS u, CAST(v AS INTEGER) AS v FROM edges
),
stands AS (
  SELECT CAST(vertex AS INTEGER) AS vertex, CAST(level AS INTEGER) AS level FROM levels
),
limits AS (
  SELECT CAST(level AS INTEGER) AS level, CAST(most AS INTEGER) AS most, CAST(least AS INTEGER) AS least FROM thresholds
),
ends AS (
  SELECT u AS vertex, v AS neighbour FROM pairs
  UNION ALL
  SELECT v, u FROM pairs
),
malformed AS (
  -- an edge that isn't in order, that stands twice, or whose end has no level
  SELECT u AS vertex FROM pairs WHERE u >= v
  UNION ALL
  SELECT u FROM pairs GROUP BY u, v HAVING COUNT(*) > 1
  UNION ALL
  SELECT ends.vertex FROM ends LEFT JOIN stands ON stands.vertex = ends.vertex WHERE stands.vertex IS NULL
  UNION ALL
  -- a vertex that stands twice, or whose level is none of this profile and this number of vertices
  SELECT vertex FROM stands GROUP BY vertex HAVING COUNT(*) > 1
  UNION ALL
  SELECT stands.vertex FROM stands LEFT JOIN limits ON limits.level = stands.level WHERE limits.level IS NULL
),
counts AS (
  SELECT own.vertex, own.level,
         SUM(CASE WHEN other.level >= own.level THEN 1 ELSE 0 END) AS up,
         SUM(CASE WHEN other.level >= own.level - 1 THEN 1 ELSE 0 END) AS down
  FROM stands AS own
  LEFT JOIN ends ON ends.vertex = own.vertex
  LEFT JOIN stands AS other ON other.vertex = ends.neighbour
  GROUP BY own.vertex, own.level
),
breaches AS (
  SELECT counts.vertex, CASE WHEN counts.up > limits.most THEN 'upper' ELSE 'lower' END AS problem
  FROM counts JOIN limits ON limits.level = counts.level
  WHERE counts.up > limits.most OR counts.down < limits.least
)
SELECT problem, vertex
FROM (
  SELECT 0 AS place, 'malformed' AS problem, vertex FROM malformed
  UNION ALL
  SELECT 1, problem, vertex FROM breaches
) AS found
ORDER BY place, vertex
LIMIT 1;
