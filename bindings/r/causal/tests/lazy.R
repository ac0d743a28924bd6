# Data frames that count their own records: tables of dbplyr, in SQLite. What isn't there is skipped by name.
library(causal)
same <- function(a, b) stopifnot(identical(a, b))
refusal <- function(call) conditionMessage(tryCatch(call, error = identity))
for (package in c("dplyr", "dbplyr", "DBI", "RSQLite")) if (!requireNamespace(package, quietly = TRUE)) {
  cat("skipped: lazy: no package ", package, "\n", sep = "")
  quit()
}
connection <- DBI::dbConnect(RSQLite::SQLite(), ":memory:")
lazy <- function(data) {
  name <- paste0("t", length(DBI::dbListTables(connection)))
  DBI::dbWriteTable(connection, name, data)
  dplyr::tbl(connection, name)
}
sorted <- function(data) data[do.call(order, c(unname(as.list(data)), list(method = "radix"))), , drop = FALSE]
stones <- causal_diagram("dag { T [exposure] R [outcome] S -> T S -> R T -> R }")
counts <- sorted(kidney_stones[c("T", "R", "S", "count")])
records <- kidney_stones[rep(seq_len(nrow(kidney_stones)), kidney_stones$count), c("S", "T", "R")]
wanted <- evaluate(stones, counts, count = "count", exact = TRUE)
same(evaluate(stones, lazy(kidney_stones), count = "count", exact = TRUE), wanted)
same(evaluate(stones, lazy(records), exact = TRUE), wanted)
same(evaluate(stones, dplyr::group_by(lazy(records), S), exact = TRUE), wanted)
compare <- function(data, count = NULL) {
  structure(contrast(stones, data, treated = "A", control = "B", count = count, resamples = 20, seed = 1), frequencies = NULL)
}
same(compare(lazy(records)), compare(counts, "count"))
chain <- causal_diagram("dag { S -> T -> R }")
test <- function(data, count = NULL) test_implications(chain, data, count = count, method = "permutation", permutations = 9, seed = 1)
same(test(lazy(records)), test(sorted(kidney_stones[c("R", "S", "T", "count")]), "count"))

# Missing values; names; counts that are none; columns that aren't there
holes <- rbind(records, data.frame(S = c(NA, NA, "small"), T = "A", R = c("success", "success", NA)))
stopifnot(inherits(tryCatch(evaluate(stones, lazy(holes)), error = identity), "causal_missing_values"))
answer <- evaluate(stones, lazy(holes), exact = TRUE, missing = "drop")
same(answer$fraction, wanted$fraction)
same(attr(answer, "dropped"), 3)
odd <- lazy(stats::setNames(counts, c("T `s", "count", "stone, size", "n")))
odd_diagram <- "dag { \"stone, size\" -> \"T `s\" \"stone, size\" -> count \"T `s\" -> count }"
same(evaluate(odd_diagram, odd, "T `s", "count", count = "n", exact = TRUE)$fraction, wanted$fraction)
for (wrong in c(-1, 0.5, NA)) {
  table <- lazy(rbind(kidney_stones, transform(kidney_stones[1, ], count = wrong)))
  stopifnot(grepl("1 row of the table have no count", refusal(evaluate(stones, table, count = "count"))))
}
caught <- tryCatch(evaluate("dag { Q -> T -> R Q -> R }", lazy(counts), "T", "R"), causal_counts_fault = identity)
same(caught[c("number", "names")], list(number = 2L, names = "Q"))
DBI::dbDisconnect(connection)
