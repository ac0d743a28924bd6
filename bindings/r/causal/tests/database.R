# Counts that a database makes: the query, and answers over a table of SQLite.
library(causal)
own <- function(name) getFromNamespace(name, "causal")
same <- function(a, b) stopifnot(identical(a, b))
refusal <- function(call) conditionMessage(tryCatch(call, error = identity))
stones <- causal_diagram("dag { T [exposure] R [outcome] S -> T S -> R T -> R T -> U }")

# The query: what the formula reads, and nothing else; names are quoted
same(counts_query(stones, "stones"), paste('SELECT records."T" AS "T", records."R" AS "R", records."S" AS "S", COUNT(*) AS "count" FROM "stones" records',
                                           'GROUP BY records."T", records."R", records."S"'))
same(counts_query(stones, c("ma\"in", "s; DROP TABLE t --"), "T", "R", count = "n\"", set = "S"),
     paste('SELECT records."T" AS "T", records."R" AS "R", records."S" AS "S", SUM(records."n""") AS "count" FROM "ma""in"."s; DROP TABLE t --" records',
           'GROUP BY records."T", records."R", records."S"'))
same(counts_query("dag { S -> B -> M S -> M B <-> M }", "t", "S", "M", short = TRUE),
     'SELECT records."S" AS "S", records."M" AS "M", COUNT(*) AS "count" FROM "t" records GROUP BY records."S", records."M"')
same(counts_query("dag { count -> \"a, b'\" }", "t", "count", "a, b'"),
     paste('SELECT records."count" AS "count", records."a, b\'" AS "a, b\'", COUNT(*) AS "count." FROM "t" records',
           'GROUP BY records."count", records."a, b\'"'))
same(counts_query("dag { A -> B -> C D }", "t", of = "implications"),
     paste('SELECT records."A" AS "A", records."B" AS "B", records."C" AS "C", records."D" AS "D", COUNT(*) AS "count" FROM "t" records',
           'GROUP BY records."A", records."B", records."C", records."D"'))
stopifnot(grepl("can't be adjusted for: not admissible", refusal(counts_query(stones, "t", set = character()))))
stopifnot(inherits(tryCatch(counts_query("dag { X -> Y X <-> Y }", "t", "X", "Y"), error = identity), "causal_not_identifiable"))
stopifnot(grepl("nothing to count", refusal(counts_query("dag { A -> B }", "t", of = "implications"))))
stopifnot(grepl("have no `x`", refusal(counts_query(stones, "t", "T", of = "implications"))))
stopifnot(grepl("have no short formula", refusal(counts_query(stones, "t", of = "implications", short = TRUE))))
stopifnot(grepl("can't hold the counts", refusal(counts_query(stones, "t", count = "S"))))
for (wrong in list(1, character(), NA_character_, "")) stopifnot(grepl("is the name of a table", refusal(counts_query(stones, wrong))))
stopifnot(grepl("data frame, a table", refusal(evaluate(stones, 1))))

if (!all(nzchar(c(system.file(package = "DBI"), system.file(package = "RSQLite"))))) {
  cat("skipped: database: the packages DBI and RSQLite aren't there\n")
  quit()
}
stopifnot(grepl("has to be a connection", refusal(database_table("stones.db", "stones"))))
connection <- DBI::dbConnect(RSQLite::SQLite(), ":memory:")
write_table <- function(name, data) {
  DBI::dbWriteTable(connection, name, data)
  database_table(connection, name)
}
execute <- function(query) invisible(DBI::dbExecute(connection, query))
sorted <- function(data) data[do.call(order, c(unname(as.list(data)), list(method = "radix"))), , drop = FALSE]
ordered_stones <- sorted(kidney_stones[c("T", "R", "S", "count")])
counted <- write_table("counted", kidney_stones)
records <- kidney_stones[rep(seq_len(nrow(kidney_stones)), kidney_stones$count), ]
listed <- write_table("odd \"name'; --", transform(records, count = 3.5, other = seq_len(nrow(records))))
same(capture.output(print(counted)), "table counted of a database")

# Each answer is that over the counts as a data frame, in the same order
wanted <- evaluate(stones, ordered_stones, count = "count", exact = TRUE)
same(evaluate(stones, counted, count = "count", exact = TRUE), wanted)
same(evaluate(stones, listed, exact = TRUE), wanted)
same(evaluate(stones, database_table(connection, c("main", "counted")), count = "count", exact = TRUE), wanted)
same(evaluate(stones, database_table(connection, DBI::Id(schema = "main", table = "counted")), count = "count", exact = TRUE), wanted)
fetched <- DBI::dbGetQuery(connection, counts_query(stones, listed$table, connection = connection))
same(sort(evaluate(stones, fetched, count = "count", exact = TRUE)$fraction), sort(wanted$fraction))
fetched <- DBI::dbGetQuery(connection, counts_query(stones, "counted", count = "count", set = "S"))
same(sort(evaluate(stones, fetched, count = "count", exact = TRUE)$fraction), sort(wanted$fraction))
for (interval in c("percentile", "bca")) {
  # (whether records are counted is told)
  compare <- function(data, count = NULL) {
    structure(contrast(stones, data, treated = "A", control = "B", count = count, resamples = 50, seed = 1, interval = interval), frequencies = NULL)
  }
  same(compare(counted, "count"), compare(ordered_stones, "count"))
  same(compare(listed), compare(ordered_stones, "count"))
}
numbers <- sorted(transform(ordered_stones, R = as.integer(R == "success"))[c("T", "R", "S", "count")])
same(effect_means(stones, write_table("numbers", numbers), count = "count", resamples = 20, seed = 1),
     effect_means(stones, numbers, count = "count", resamples = 20, seed = 1))
napkin <- "dag { X [exposure] Y [outcome] W -> Z -> X -> Y W <-> X W <-> Y }"
grid <- expand.grid(Z = 0:1, Y = 0:1, X = 0:1, W = 0:1)
grid$n <- seq_len(nrow(grid)) + 3
grid_table <- write_table("grid", grid[16:1, ])
same(pin_spread(napkin, grid_table, count = "n"), pin_spread(napkin, grid, count = "n"))
same(attr(evaluate(napkin, grid_table, count = "n", at = list(Z = 1)), "pinned"), list(Z = 1L))
chain <- causal_diagram("dag { S -> T -> R }")
for (method in c("chi-squared", "permutation")) {
  test <- function(data, count = NULL) test_implications(chain, data, count = count, method = method, permutations = 99, seed = 1)
  same(test(counted, "count"), test(sorted(kidney_stones[c("R", "S", "T", "count")]), "count"))
  same(test(listed), test(counted, "count"))
}
same(as.data.frame(implications(chain, listed))$exact, implications(chain, kidney_stones, count = "count")$exact)

# A row for each cell is fetched, not for each record
same(nrow(own("fetch_counts")(listed, c("T", "R", "S"), NULL)), 8L)

# Missing values, by records; names with odd characters; large counts
holes <- write_table("holes", rbind(records[c("S", "T", "R")], data.frame(S = c(NA, NA, "small"), T = "A", R = c("success", "success", NA))))
stopifnot(inherits(tryCatch(evaluate(stones, holes), error = identity), "causal_missing_values"))
answer <- evaluate(stones, holes, exact = TRUE, missing = "drop")
same(answer$fraction, wanted$fraction)
same(attr(answer, "dropped"), 3)
odd <- write_table("t2", stats::setNames(ordered_stones, c("\u00c5", "R `s", "stone, size", "count\"")))
odd_diagram <- "dag { \"stone, size\" -> \u00c5 \"stone, size\" -> \"R `s\" \u00c5 -> \"R `s\" }"
same(evaluate(odd_diagram, odd, "\u00c5", "R `s", count = "count\"", exact = TRUE)$fraction, wanted$fraction)
large <- write_table("large", transform(ordered_stones, count = count * 1e9))
execute("UPDATE large SET count = CAST(count AS INTEGER)")
same(evaluate(stones, large, count = "count", exact = TRUE)$fraction, wanted$fraction)
execute("CREATE TABLE whole (T BIGINT, R INT, S INT, n BIGINT)")
execute(paste("INSERT INTO whole SELECT CASE T WHEN 'A' THEN -8000000000 ELSE 8000000000 END, R = 'success', S = 'small',",
              "count * 1000000000 FROM counted"))
answer <- evaluate(stones, database_table(connection, "whole"), count = "n", exact = TRUE)
same(answer$fraction, wanted$fraction)
same(unique(answer$T), c(-8e9, 8e9))
execute("UPDATE whole SET T = T * 1000000000 + 1")
stopifnot(grepl("can't tell apart", refusal(evaluate(stones, database_table(connection, "whole"), count = "n"))))

# Refusals: the same faults; a column that isn't there is no text; sums hide no wrong count
caught <- tryCatch(evaluate("dag { Q -> T -> R Q -> R }", counted, "T", "R", count = "count"), causal_counts_fault = identity)
same(caught[c("number", "names")], list(number = 2L, names = "Q"))
stopifnot(grepl("no such column", refusal(DBI::dbGetQuery(connection, counts_query("dag { Q -> T -> R Q -> R }", "counted", "T", "R")))))
caught <- tryCatch(evaluate(stones, counted, count = "weight"), causal_counts_fault = identity)
same(caught[c("number", "names")], list(number = 2L, names = "weight"))
for (wrong in c(-1, 0.5, NA)) {
  DBI::dbWriteTable(connection, "wrong", rbind(kidney_stones, transform(kidney_stones[1, ], count = wrong)), overwrite = TRUE)
  stopifnot(grepl("1 row of the table have no count", refusal(evaluate(stones, database_table(connection, "wrong"), count = "count"))))
}
execute("CREATE TABLE mixed (T, R, S)")
execute("INSERT INTO mixed SELECT CASE T WHEN 'A' THEN 0 ELSE 'zero' END, R, S FROM counted")
stopifnot(grepl("can't be read as they are", refusal(evaluate(stones, database_table(connection, "mixed")))))
for (count in list(NULL, "count")) {
  DBI::dbWriteTable(connection, "empty", kidney_stones[0, ], overwrite = TRUE)
  caught <- tryCatch(evaluate(stones, database_table(connection, "empty"), count = count), causal_counts_fault = identity)
  same(caught$number, 7L)
}
caught <- tryCatch(evaluate("dag { X -> Y X <-> Y }", counted, "X", "Y"), causal_not_identifiable = identity)
stopifnot(inherits(caught$hedge, "causal_hedge"))
same(nrow(test_implications("dag { A -> B }", counted)), 0L)
DBI::dbDisconnect(connection)

# The same in DuckDB, where it is there (Debian doesn't have it, so it isn't suggested)
if (nzchar(system.file(package = "duckdb"))) {
  connection <- DBI::dbConnect(getExportedValue("duckdb", "duckdb")())
  DBI::dbWriteTable(connection, "counted", kidney_stones)
  same(evaluate(stones, database_table(connection, "counted"), count = "count", exact = TRUE), wanted)
  DBI::dbDisconnect(connection, shutdown = TRUE)
} else cat("skipped: database: no package duckdb\n")
