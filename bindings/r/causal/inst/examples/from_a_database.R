# From a table in a database to a tidy table and a drawing of an effect. Run by the tests; each step needs the packages that it names.
library(causal)

# A treatment of kidney stones (T) was chosen by their size (S), which also decides about success (R).
diagram <- causal_diagram("dag { T [exposure] R [outcome] S -> T S -> R T -> R }")

# Can the effect be computed from observations? The formula, as a table.
effect <- identify_effect(diagram)
print(effect)

# What has to be counted for it, wherever the records are.
cat(counts_query(diagram, "stones", count = "count"), "\n")

# The records stay in the database: the answers over it need their counts alone. (DBI, RSQLite)
has <- function(package) requireNamespace(package, quietly = TRUE)
if (has("DBI") && has("RSQLite")) {
  connection <- DBI::dbConnect(RSQLite::SQLite(), ":memory:")
  DBI::dbWriteTable(connection, "stones", kidney_stones)
  data <- database_table(connection, "stones")
} else {
  data <- kidney_stones
}
print(evaluate(diagram, data, count = "count", exact = TRUE))
answer <- contrast(diagram, data, treated = "A", control = "B", count = "count", resamples = 200, seed = 1)
print(answer)

# What a diagram without the edge from S to R would imply, tested.
tests <- test_implications(causal_diagram("dag { S -> T -> R }"), data, count = "count", seed = 1)
print(tests)

# The same answers as plain tables with broom's names. (generics)
if (has("generics")) {
  print(generics::tidy(answer))
  print(generics::glance(answer))
  print(generics::tidy(tests))
}

# And as drawings. (ggplot2)
if (has("ggplot2")) {
  print(ggplot2::autoplot(diagram))
  print(ggplot2::autoplot(answer) + ggplot2::theme_minimal())
}

if (exists("connection")) DBI::dbDisconnect(connection)
