# Effects over data frames: counts and records, factors, numbers, text, missing values, odd names.
library(causal)
same <- function(a, b) stopifnot(identical(a, b))
diagram <- causal_diagram("dag { T [exposure] R [outcome] S -> T S -> R T -> R }")

exact <- evaluate(diagram, kidney_stones, count = "count", exact = TRUE)
same(exact$fraction, c("634983/762700", "127717/762700", "6231/8000", "1769/8000"))
same(exact$T, c("A", "A", "B", "B"))
same(exact$R, c("success", "failure", "success", "failure"))
stopifnot(abs(exact$estimate[1] - 634983 / 762700) < 1e-15)
bounds <- evaluate(diagram, kidney_stones, count = "count")
same(bounds$from[1], "0.832546217385603774")
same(bounds$to[1], "0.832546217385603777")
same(names(bounds), c("T", "R", "estimate", "from", "to"))
print(bounds)

# Each record by itself gives the same as the counts
records <- kidney_stones[rep(seq_len(nrow(kidney_stones)), kidney_stones$count), c("R", "S", "T")]
same(evaluate(diagram, records, exact = TRUE)$fraction, exact$fraction)

# Factors: the order of their levels; a level that doesn't occur isn't asked for
factors <- kidney_stones
factors$T <- factor(factors$T, levels = c("B", "C", "A"))
factors$R <- factor(factors$R, levels = c("failure", "success"), ordered = TRUE)
answer <- evaluate(diagram, factors, count = "count", exact = TRUE)
same(answer$fraction, exact$fraction[c(4, 3, 2, 1)])
same(levels(answer$T), c("B", "C", "A"))
stopifnot(is.ordered(answer$R))

# Numbers and truth values: in increasing order, and as numbers in the answer
numbers <- kidney_stones
numbers$T <- ifelse(numbers$T == "A", 2.5, -1)
numbers$R <- numbers$R == "success"
answer <- evaluate(diagram, numbers, count = "count", exact = TRUE)
same(answer$T, c(-1, -1, 2.5, 2.5))
same(answer$R, c(FALSE, TRUE, FALSE, TRUE))
same(answer$fraction, exact$fraction[c(4, 3, 2, 1)])

# Text with commas, quotes, line feeds and characters beyond ASCII
odd <- kidney_stones
odd$T <- ifelse(odd$T == "A", "a,\"b\"\n|do(", "=\u00c5)")
answer <- evaluate(diagram, odd, count = "count", exact = TRUE)
same(answer$fraction, exact$fraction)
same(answer$T, rep(c("a,\"b\"\n|do(", "=\u00c5)"), each = 2))

# Odd names
renamed <- stats::setNames(kidney_stones, c("stone, size", "\u00c5", "R s", "count"))
answer <- evaluate("dag { \"stone, size\" -> \u00c5 \"stone, size\" -> \"R s\" \u00c5 -> \"R s\" }", renamed, "\u00c5", "R s",
                   count = "count", exact = TRUE)
same(answer$fraction, exact$fraction)
same(names(answer)[1:2], c("\u00c5", "R s"))
value <- stats::setNames(kidney_stones, c("S", "T", "value", "n"))
same(names(evaluate("dag { S -> T S -> value T -> value }", value, "T", "value", count = "n")), c("T", "value", "estimate", "from", "to"))

# Missing values
holes <- rbind(records, data.frame(R = c("success", NA), S = c(NA, "small"), T = c("A", "B")))
holes$other <- NA
caught <- tryCatch(evaluate(diagram, holes), causal_missing_values = identity)
stopifnot(startsWith(conditionMessage(caught), "2 of 702 records have a missing value in a column that the answer needs (R: 1, S: 1); missing = \"drop\""))
same(caught$rows, 701:702)
answer <- evaluate(diagram, holes, exact = TRUE, missing = "drop")
same(answer$fraction, exact$fraction)
same(attr(answer, "dropped"), 2)
print(answer)
kept <- transform(kidney_stones, S = addNA(ifelse(S == "small", NA, S)))
same(evaluate(diagram, kept, count = "count", exact = TRUE)$fraction, exact$fraction)

# A contingency table
answer <- evaluate(diagram, xtabs(count ~ S + T + R, kidney_stones), exact = TRUE)
same(sort(answer$fraction), sort(exact$fraction))

# Counts that R's integers can't add up
large <- transform(kidney_stones, count = count * 1000000L)
same(evaluate(diagram, rbind(large, large, large, large, large), count = "count", exact = TRUE)$fraction, exact$fraction)

# Pinned variables, and no exposure
napkin <- "dag { X [exposure] Y [outcome] W -> Z -> X -> Y W <-> X W <-> Y }"
grid <- expand.grid(W = 0:1, Z = c("low", "high"), X = 0:1, Y = 0:1)
grid$n <- seq_len(nrow(grid)) + 3
answer <- evaluate(napkin, grid, count = "n")
same(as.character(attr(answer, "pinned")$Z), "low")
print(answer)
grid$Z <- factor(grid$Z, c("high", "low"))
same(as.character(attr(evaluate(napkin, grid, count = "n"), "pinned")$Z), "high")
same(evaluate(diagram, kidney_stones, character(), "R", count = "count", exact = TRUE)$fraction, c("281/350", "69/350"))

# Refusals
caught <- tryCatch(evaluate(diagram, kidney_stones[1:6, ], count = "count"), causal_evaluation_fault = identity)
same(caught$cell, c(T = "B", R = "success", S = "large"))
stopifnot(grepl("S=large", conditionMessage(caught)))
caught <- tryCatch(evaluate(diagram, kidney_stones[-1], count = "count"), causal_counts_fault = identity)
same(caught[c("number", "names")], list(number = 2L, names = "S"))
caught <- tryCatch(evaluate(diagram, kidney_stones, count = "weight"), causal_counts_fault = identity)
same(caught[c("number", "names")], list(number = 2L, names = "weight"))
caught <- tryCatch(evaluate(diagram, cbind(kidney_stones, kidney_stones["T"]), count = "count"), causal_counts_fault = identity)
same(caught[c("number", "names")], list(number = 3L, names = "T"))
caught <- tryCatch(evaluate(diagram, transform(kidney_stones, count = count / 2), count = "count"), causal_counts_fault = identity)
same(caught$number, 4L)
same(caught$row, 1L)
caught <- tryCatch(evaluate(diagram, kidney_stones[0, ], count = "count"), causal_counts_fault = identity)
same(caught$number, 7L)
caught <- tryCatch(evaluate(diagram, transform(kidney_stones, count = 0), count = "count"), causal_counts_fault = identity)
same(caught$number, 7L)
many <- data.frame(S = seq_len(1100), T = seq_len(1100), R = rep(1:2, 550))
caught <- tryCatch(evaluate(diagram, many), causal_counts_fault = identity)
same(caught$number, 5L)
caught <- tryCatch(evaluate("dag { X -> Y X <-> Y }", grid, "X", "Y"), causal_not_identifiable = identity)
stopifnot(inherits(caught$hedge, "causal_hedge"))
caught <- tryCatch(evaluate(diagram, kidney_stones, "Q", count = "count"), causal_target_fault = identity)
same(caught$number, 1L)
