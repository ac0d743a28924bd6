# Values over resamples by the formula's tree, against the library's, over thin tables of random diagrams.
library(causal)
own <- function(name) getFromNamespace(name, "causal")
set.seed(5)
compared <- 0
for (round in 1:12) {
  names <- c("X", "Y", LETTERS[1:3])
  order <- sample(names)
  pairs <- utils::combn(5, 2)[, stats::runif(10) < 0.45, drop = FALSE]
  if (!ncol(pairs)) next
  edges <- data.frame(from = order[pairs[1, ]], edge = sample(c("->", "->", "<->"), ncol(pairs), TRUE), to = order[pairs[2, ]])
  diagram <- as_causal_diagram(edges, vertices = names)
  data <- as.data.frame(lapply(stats::setNames(names, names), function(name) sample(0:1, 40, TRUE, c(0.6, 0.4))))
  for (zero in c(TRUE, FALSE)) for (short in c(TRUE, FALSE)) for (given in list(NULL, "A")) {
    asked <- tryCatch(own("asked_of")(diagram, "X", "Y", given = given, zero = zero, short = short), causal_refusal = function(it) NULL)
    if (is.null(asked)) next
    table <- own("table_for")(asked, data, NULL, "error")
    effects <- tryCatch(own("effects_of")(asked, table), causal_refusal = function(it) NULL)
    if (is.null(effects)) next
    counts <- stats::rmultinom(8, 40, table$counts)
    found <- own("values_by_tree")(asked, table, effects)(counts)
    wanted <- own("values_by_library")(asked, table, effects)(counts)
    stopifnot(identical(is.na(found), is.na(wanted)), all(abs(found - wanted) < 1e-12, na.rm = TRUE))
    compared <- compared + 1
  }
}
stopifnot(compared > 20)
