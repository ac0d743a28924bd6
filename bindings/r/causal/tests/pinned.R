# The level at which a variable is pinned that the formula reads beside x and y; and the value at each.
library(causal)
same <- function(a, b) stopifnot(identical(a, b))
refusal <- function(call) conditionMessage(tryCatch(call, error = identity))
napkin <- causal_diagram("dag { X [exposure] Y [outcome] W -> Z -> X -> Y W <-> X W <-> Y }")
set.seed(5)
flip <- function(chance) as.integer(stats::runif(600) < chance)
first <- flip(0.5)
second <- flip(0.4)
W <- flip(0.2 + 0.3 * first + 0.3 * second)
Z <- flip(0.3 + 0.4 * W)
X <- flip(0.2 + 0.3 * Z + 0.3 * first)
Y <- flip(0.1 + 0.3 * X + 0.4 * second)
data <- data.frame(W, Z, X, Y)
fractions <- function(answer) sort(answer$fraction)

# The first level in order, whatever comes first in the data: numbers by size, text by its characters, factors by their levels
at_zero <- evaluate(napkin, data, exact = TRUE)
same(attr(at_zero, "pinned"), list(Z = 0L))
for (rows in list(order(Z), order(-Z))) same(fractions(evaluate(napkin, data[rows, ], exact = TRUE)), fractions(at_zero))
for (kinds in list(c("a", "b"), c("10", "9"), c("B", "a"), c(-1, 0.5), c(9, 10), as.Date(c("2020-01-01", "2021-01-01"))))
  for (low in 0:1) {
    turned <- transform(data, Z = if (low == 0) kinds[Z + 1] else kinds[2 - Z])
    pinned <- attr(evaluate(napkin, turned[rev(seq_len(nrow(turned))), ]), "pinned")
    same(pinned$Z, kinds[1])
  }
turned <- transform(data, Z = factor(Z, c(1, 0)))
same(attr(evaluate(napkin, turned), "pinned"), list(Z = "1"))
same(utils::capture.output(print(at_zero))[1], "pinned: Z=0 (in the population every level gives the same)")

# The level that is given
at_one <- evaluate(napkin, data, exact = TRUE, at = list(Z = 1))
same(attr(at_one, "pinned"), list(Z = 1L))
same(fractions(at_one), fractions(evaluate(napkin, turned, exact = TRUE)))
stopifnot(!identical(at_one$fraction, at_zero$fraction))
same(evaluate(napkin, data, exact = TRUE, at = c(Z = "1"))$fraction, at_one$fraction)
same(attr(contrast(napkin, data, at = list(Z = 1), resamples = 5, seed = 1), "pinned"), list(Z = 1L))
stopifnot(grepl("Z has no level 2 in the data; it has 0, 1", refusal(evaluate(napkin, data, at = list(Z = 2)))))
for (wrong in list(list(X = 1), list(1), list(Z = 0:1), list(Z = 1, Z = 0)))
  stopifnot(grepl("`at` has one level for each of the variables it names, of Z", refusal(evaluate(napkin, data, at = wrong))))
stopifnot(grepl("of which there are none here", refusal(evaluate("dag { X -> Y }", data, "X", "Y", at = list(Z = 1)))))

# The value at each level
spread <- pin_spread(napkin, data, exact = TRUE)
same(spread$Z, rep(0:1, each = 4))
same(spread$fraction, c(at_zero$fraction, at_one$fraction))
same(attr(spread, "free"), "Z")
shown <- utils::capture.output(print(spread))
same(length(shown), 10L)
stopifnot(grepl("^at most 0.0.* apart; in the population every level gives the same$", shown[length(shown)]))
more <- rbind(data, transform(data[1, ], Z = 7L))
spread <- pin_spread(napkin, more)
same(attr(spread, "without_value"), list(list(Z = "7")))
stopifnot("no value at Z=7" %in% utils::capture.output(print(spread)))
stopifnot(grepl("no variable beside x and y", refusal(pin_spread("dag { X -> Y }", data, "X", "Y"))))

# Counts are no variable
stopifnot(grepl("the column Y can't hold the counts", refusal(evaluate("dag { X -> Y }", data, "X", "Y", count = "Y"))))
stopifnot(grepl("the column B can't hold the counts", refusal(implications("dag { A -> B -> C }", data.frame(A = 1, B = 1, C = 1), count = "B"))))
