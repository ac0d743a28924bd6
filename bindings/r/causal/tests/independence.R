# Tests of what a diagram implies of data.
library(causal)
own <- function(name) getFromNamespace(name, "causal")
same <- function(a, b) stopifnot(identical(a, b))
near <- function(a, b, by = 1e-8) stopifnot(length(a) == length(b), all(abs(a - b) < by))
chain <- causal_diagram("dag { A -> B -> C }")
set.seed(3)
chain_data <- function(size, direct = 0, levels = 2) {
  A <- sample(levels, size, TRUE)
  B <- ifelse(runif(size) < 0.6, A, sample(levels, size, TRUE))
  C <- ifelse(runif(size) < direct, A, ifelse(runif(size) < 0.6, B, sample(levels, size, TRUE)))
  data.frame(A, B, C)
}

# G squared, its degrees of freedom and Cramer's V, by hand
data <- data.frame(A = c(0, 0, 1, 1, 0, 0, 0), B = c(0, 0, 0, 0, 1, 1, 2), C = c(0, 1, 0, 1, 0, 1, 1), n = c(9, 5, 3, 8, 4, 4, 1))
counts <- matrix(c(9, 3, 5, 8), 2)
expected <- outer(rowSums(counts), colSums(counts)) / 25
test <- test_implications(chain, data, count = "n", method = "permutation", permutations = 50)
near(test$statistic, 2 * sum(counts * log(counts / expected)))
same(c(test$df, test$a, test$b, test$given[[1]]), c("1", "A", "C", "B"))
near(test$effect_size, sqrt(sum((counts - expected)^2 / expected) / 34))
same(test$method, "permutation")
near(test$largest_difference, (9 - 14 * 12 / 25) / 34)
near(test$rmsea, sqrt((test$statistic - 1) / 33))
stopifnot(test$rmsea_low < test$rmsea, test$rmsea < test$rmsea_high)

# The interval of the RMSEA, as R's own noncentral distribution has it
for (df in c(1, 2, 6, 30)) for (shift in c(0.5, 5, 80, 5000)) for (part in c(0.05, 0.5, 0.975)) {
  statistic <- qchisq(part, df, shift)
  near(own("noncentral_below")(statistic, df, shift), part, if (statistic < 500) 1e-8 else 2e-3)
  if (shift > 1) near(own("noncentral_below")(statistic, df, own("shift_at")(statistic, df, part)), part, 1e-6)
}
same(own("shift_at")(3, 4, 0.5), 0)

# As R's own tests have it
data <- chain_data(4000, 0.02, 3)
test <- test_implications(chain, data)
near(test$p_value, pchisq(test$statistic, test$df, lower.tail = FALSE))
same(c(test$df, test$method), c("12", "chi-squared"))
chi <- suppressWarnings(sum(vapply(split(data, data$B), function(part) chisq.test(table(part$A, part$C))$statistic, 0)))
near(test$effect_size, sqrt(chi / (4000 * 2)))
by_chance <- test_implications(chain, data, method = "permutation", permutations = 2000, seed = 1)
near(by_chance$p_value, test$p_value, 0.05)
fisher <- matrix(c(8, 1, 2, 5), 2)
near(own("permutation_p")(list(fisher), own("deviance_of")(fisher), 20000), fisher.test(fisher)$p.value, 0.01)

# Independent data has p-values of each size, dependent data small ones
p <- replicate(150, test_implications(chain, chain_data(60), permutations = 199)$p_value)
stopifnot(sum(p < 0.1) < 31, sum(p < 0.5) > 49, sum(p < 0.5) < 101)
stopifnot(test_implications(chain, chain_data(2000, 0.3))$p_value < 0.01)

# Holm's correction over several pairs; a seed; what is kept
diagram <- causal_diagram("dag { A -> B -> C \"a d\" -> C }")
data <- cbind(chain_data(300), data.frame("a d" = rep(1:3, 100), check.names = FALSE))
tests <- test_implications(diagram, data, seed = 1, permutations = 99)
pairs <- implications(diagram)
same(paste(tests$a, tests$b, tests$given), paste(pairs$a, pairs$b, pairs$given))
same(tests$p_holm, p.adjust(tests$p_value, "holm"))
before <- .Random.seed
same(tests, test_implications(diagram, data, seed = 1, permutations = 99))
same(.Random.seed, before)
plain <- as.data.frame(tests)
same(class(plain), "data.frame")
same(plain$given, as.character(tests$given))
same(read.csv(text = capture.output(write.csv(tests, row.names = FALSE)))$given, plain$given)
print(tests)
pdf(NULL)
drawn <- plot(tests, main = "pairs")
same(drawn$rmsea, tests$rmsea[!is.na(tests$p_value)])
plot(test_implications("dag { A -> B }", data))
invisible(dev.off())
missing <- test_implications(chain, rbind(data[1:3], NA), missing = "drop", permutations = 9)
same(attr(missing, "dropped"), 1)
stopifnot(inherits(try(test_implications(chain, rbind(data[1:3], NA)), silent = TRUE), "try-error"))

# Nothing to test
same(nrow(test_implications("dag { A -> B }", data)), 0L)
same(capture.output(print(test_implications("dag { A -> B }", data))), "none")
test <- test_implications(chain, data.frame(A = 0:1, B = 0:1, C = 0:1))
stopifnot(is.na(test$p_value), is.na(test$method), test$df == 0)
for (wrong in list(0, 1.5, c(1, 2))) stopifnot(inherits(try(test_implications(chain, data, permutations = wrong), silent = TRUE), "try-error"))
