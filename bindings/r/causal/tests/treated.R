# Effects among the treated, in data: their values over counts, and contrasts of them with intervals.
library(causal)
same <- function(a, b) stopifnot(identical(a, b))
near <- function(a, b, by = 1e-12) stopifnot(length(a) == length(b), all(abs(a - b) < by))
refused <- function(call, words) stopifnot(grepl(words, conditionMessage(tryCatch(call, error = identity)), fixed = TRUE))
diagram <- causal_diagram("dag { T [exposure] R [outcome] S -> T S -> R T -> R }")
stones <- data.frame(S = c("small", "large"), T = rep(c("A", "A", "B", "B"), 2), R = rep(1:0, each = 4), n = c(81, 192, 234, 55, 6, 71, 36, 25))
at <- function(found, measure) found$estimate[found$measure == measure]

# Published counts, by hand: the sum over S of P(S | T' = B) P(R = 1 | S, T = A)
wanted <- 270 / 350 * 81 / 87 + 80 / 350 * 192 / 263
found <- evaluate(diagram, stones, count = "n", treated = TRUE, exact = TRUE)
same(names(found), c("T", "T'", "R", "estimate", "fraction"))
row <- found[["T"]] == "A" & found[["T'"]] == "B" & found$R == 1
same(found$fraction[row], "33753/38135")
near(found$estimate[row], wanted)
same(found$fraction[found[["T"]] == "B" & found[["T'"]] == "B" & found$R == 1], "289/350")
records <- stones[rep(seq_len(nrow(stones)), stones$n), c("S", "T", "R")]
near(evaluate(diagram, records, treated = TRUE)$estimate, evaluate(diagram, stones, count = "n", treated = TRUE)$estimate)
small <- evaluate(diagram, stones, count = "n", treated = TRUE, given = list(S = "small"), exact = TRUE)
same(unique(small$S), "small")
same(small$fraction[small[["T"]] == "A" & small[["T'"]] == "B" & small$R == 1], "27/29")

# The effect of treatment on the treated, with intervals
found <- contrast(diagram, stones, treated = "A", control = "B", outcome = 1, observed = "B", count = "n", resamples = 300, seed = 1)
near(at(found, "risk_treated"), wanted, 1e-15)
near(at(found, "difference"), wanted - 289 / 350, 1e-15)
stopifnot(all(found$conf_low < found$estimate), all(found$conf_high > found$estimate), all(found[["T'"]] == "B"), all(found$note == ""))
modelled <- estimate(diagram, stones, treated = "A", control = "B", outcome = 1, observed = "B", count = "n", model = "table", smoothing = 0)
near(at(found, "difference"), at(modelled, "difference"), 1e-9)
groups <- contrast(diagram, stones, treated = "A", control = "B", outcome = 1, observed = "B", count = "n", given = "S", resamples = 0)
same(groups$S[groups$measure == "difference"], c("small", "large"))
records$w <- 2
weighted <- contrast(diagram, records, treated = "A", control = "B", outcome = 1, observed = "B", weights = "w", resamples = 50)
near(at(weighted, "difference"), at(found, "difference"), 1e-9)

# Several treatments
set.seed(7)
C <- stats::rbinom(800, 1, 0.5)
two <- data.frame(C, A = stats::rbinom(800, 1, 0.3 + 0.4 * C), B = stats::rbinom(800, 1, 0.6 - 0.3 * C))
two$Y <- stats::rbinom(800, 1, 0.2 + 0.2 * two$A + 0.2 * two$B + 0.2 * C)
found <- contrast("dag { C -> A -> Y C -> B -> Y C -> Y }", two, c("A", "B"), "Y", treated = c(0, 1), control = c(0, 0), observed = c(1, 0), outcome = 1, resamples = 0)
by_hand <- function(b) sum(vapply(0:1, function(c) with(two, mean(C[A == 1 & B == 0] == c) * mean(Y[A == 0 & B == b & C == c])), 0))
near(found$estimate[1:2], c(by_hand(1), by_hand(0)))
same(names(found)[1:3], c("A'", "B'", "Y"))

# Refusals
refused(evaluate(diagram, stones, count = "n", treated = TRUE, set = "S"), "goes by its own formula")
refused(contrast(diagram, stones, treated = "A", control = "B", observed = "C", count = "n"), "C")
refused(contrast(diagram, stones, treated = "A", control = "B", observed = list(Q = 1), count = "n"), "`observed` has one level of each of T")
refused(evaluate("dag { X -> Y X <-> Y }", data.frame(X = 0:1, Y = 1:0), "X", "Y", treated = TRUE), "the effect among the treated has no formula")
thin <- data.frame(S = c(0, 0, 1), T = c(0, 1, 0), R = c(1, 0, 1))
refused(evaluate(diagram, thin, treated = TRUE), "`observed` fills in by models")

# Certificates in parts
formula <- treated_effect(diagram, certificate = TRUE)
judged <- check_certificate(diagram, formula)
stopifnot(judged$accepted, identical(judged$effect, "P(R|do(T),T')"), length(judged$parts) == 3)
refused(check_certificate(diagram, treated_effect(diagram)), "has no certificate")
judged <- check_certificate("dag { X -> Y X <-> Y }", treated_effect("dag { X -> Y }", "X", "Y", certificate = TRUE))
same(list(judged$accepted, judged$parts_fault, judged$at), list(FALSE, 1L, c("X", "Y")))
natural <- natural_effect("dag { X -> M -> Y X -> Y }", "X", "Y", through = "M", certificate = TRUE)
stopifnot(check_certificate("dag { X -> M -> Y X -> Y }", natural)$accepted)
judged <- check_certificate("dag { X -> M -> Y X -> Y M <-> Y }", natural)
same(list(judged$parts_fault, judged$at), list(3L, c("M", "Y")))
