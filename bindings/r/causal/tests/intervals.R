# Contrasts and their intervals.
library(causal)
part_of <- function(answer, measure, column = "estimate") as.data.frame(answer)[[column]][answer$measure == measure]
same <- function(a, b) stopifnot(identical(a, b))
diagram <- causal_diagram("dag { T [exposure] R [outcome] S -> T S -> R T -> R }")
near <- function(a, b) stopifnot(isTRUE(all.equal(a, b)))

answer <- contrast(diagram, kidney_stones, count = "count", treated = "A", control = "B", resamples = 200, seed = 1)
near(part_of(answer, "difference"), c(634983 / 762700 - 6231 / 8000, 127717 / 762700 - 1769 / 8000))
near(part_of(answer, "ratio")[1], (634983 / 762700) / (6231 / 8000))
stopifnot(part_of(answer, "difference", "conf_low") < part_of(answer, "difference"), part_of(answer, "difference") < part_of(answer, "difference", "conf_high"))
stopifnot(part_of(answer, "ratio", "conf_low") < part_of(answer, "ratio"), part_of(answer, "ratio") < part_of(answer, "ratio", "conf_high"))
same(attr(answer, "without_value"), 0L)
print(answer)

# A seed gives the same again, and leaves the session's random numbers alone
set.seed(7)
before <- .Random.seed
again <- contrast(diagram, kidney_stones, count = "count", treated = "A", control = "B", resamples = 200, seed = 1)
same(.Random.seed, before)
same(as.list(again), as.list(answer))

# The default arms are the two levels; other sets need them named
default <- contrast(diagram, kidney_stones, count = "count", resamples = 0)
same(attr(default, "treated"), list(T = "B"))
same(part_of(default, "risk_treated"), part_of(answer, "risk_control"))
stopifnot(is.na(part_of(default, "difference", "conf_low")))
caught <- try(contrast(diagram, kidney_stones, count = "count", treated = "C", control = "A"), silent = TRUE)
stopifnot(grepl("T has no level C in the data; it has A, B", caught))
two <- contrast("dag { A -> Y B -> Y }", data.frame(A = rep(0:1, 8), B = rep(0:1, each = 8), Y = rep(c(0, 1, 1), length.out = 16)),
                c("A", "B"), "Y", treated = c(B = 1, A = 1), control = list(A = 0, B = 0), resamples = 20, seed = 3)
same(attr(two, "treated"), list(A = 1L, B = 1L))
same(nrow(two), 10L)
same(unique(two$treated), "A=1, B=1")

# Few records: resamples without a value are counted, and left out
few <- data.frame(S = c(0, 0, 1, 1, 0, 1), T = c(0, 1, 0, 1, 1, 0), R = c(0, 1, 1, 1, 0, 0))
answer <- withCallingHandlers(contrast(diagram, few, resamples = 100, seed = 2), causal_doubt = function(told) {
  stopifnot(grepl("resamples had no value, so that the intervals are too narrow", conditionMessage(told)))
  invokeRestart("muffleWarning")
})
stopifnot(attr(answer, "without_value") > 0, attr(answer, "without_value") < 100)

# Data drawn from a model of the napkin: the interval covers the truth
set.seed(20)
n <- 20000
flip <- function(chance) as.integer(stats::runif(n) < chance)
first <- flip(0.5)
second <- flip(0.4)
W <- flip(0.2 + 0.3 * first + 0.3 * second)
Z <- flip(0.3 + 0.4 * W)
X <- flip(0.2 + 0.3 * Z + 0.3 * first)
Y <- flip(0.1 + 0.3 * X + 0.4 * second)
truth <- c(control = 0.1 + 0.4 * 0.4, treated = 0.4 + 0.4 * 0.4)
napkin <- "dag { X [exposure] Y [outcome] W -> Z -> X -> Y W <-> X W <-> Y }"
answer <- contrast(napkin, data.frame(W, Z, X, Y), resamples = 300, seed = 4)
one <- answer[answer$Y == 1, ]
stopifnot(part_of(one, "difference", "conf_low") < 0.3, 0.3 < part_of(one, "difference", "conf_high"))
ratio <- truth[["treated"]] / truth[["control"]]
stopifnot(part_of(one, "ratio", "conf_low") < ratio, ratio < part_of(one, "ratio", "conf_high"))
same(names(attr(answer, "pinned")), "Z")
stopifnot(inherits(try(contrast("dag { X -> Y X <-> Y }", data.frame(X, Y), "X", "Y"), silent = TRUE), "try-error"))
