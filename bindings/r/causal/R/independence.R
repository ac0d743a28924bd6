# Tests of what a diagram implies of data. Which pairs are independent given which set the library tells; the tests are computed.

test_implications <- function(diagram, data, count = NULL, method = c("auto", "chi-squared", "permutation"), permutations = 1000, seed = 0,
                              missing = c("error", "drop", "level"), progress = NULL) {
  diagram <- as_causal_diagram(diagram)
  method <- one_of(method)
  check_whole("permutations", permutations, 1)
  table <- count_table(diagram, character(), data, count, one_of(missing), "implications")
  pairs <- read_implications(object_of(ask("implications", diagram)))
  seed <- seed_or_drawn(seed)
  tell <- progress_of(progress, length(pairs$a))
  tests <- with_seed(seed, lapply(seq_along(pairs$a), function(k) {
    found <- pair_test(table, pairs$a[k], pairs$b[k], pairs$given[[k]], method, permutations)
    tell(k, length(pairs$a))
    found
  }))
  column <- function(name, kind) vapply(tests, `[[`, kind, name)
  p <- column("p", 0)
  columns <- list(a = pairs$a, b = pairs$b, given = text_list(pairs$given), statistic = column("statistic", 0), df = column("df", 0),
                  p_value = p, p_holm = stats::p.adjust(p, "holm"), effect_size = column("effect", 0), method = column("method", ""))
  sizes <- c(largest_difference = "largest", rmsea = "rmsea", rmsea_low = "rmsea_lower", rmsea_high = "rmsea_upper")
  columns <- c(columns, lapply(sizes, column, kind = 0), list(note = column("note", "")))
  structure(frame_of(columns), class = c("causal_tests", "data.frame"), permutations = permutations, seed = seed,
            dropped = if (is.null(table)) 0 else table$dropped)
}

# The test of one pair, with what speaks against reading it. Where a variable has nearly a level for each record no table could be far
# from independence, so that there is no test.
pair_test <- function(table, a, b, given, method, permutations) {
  records <- sum(table$counts)
  used <- c(a, b, given)
  sizes <- lengths(table$levels[used])
  many <- used[sizes > 10 & 5 * sizes > records]
  found <- independence_test(strata_of(table, a, b, given), method, permutations, length(many) == 0)
  note <- ""
  if (length(many)) {
    note <- paste0("no test: ", many[1], " has ", sizes[[many[1]]], " levels in ", counted(records, "record"), ", so cut it to a few classes")
    doubt(a, " from ", b, ": ", note)
  } else if (is.na(found$p)) {
    note <- "no test: no level of what is given has two levels of both"
  } else if (4 * found$df > records) {
    note <- paste0("thin: ", found$df, " degrees of freedom in ", counted(records, "record"), ", where a large p says little")
  }
  c(found, list(note = note))
}

# The counts of two variables in each level of what is given that has two levels of both; a matrix for each, as a sum over all of them.
strata_of <- function(table, a, b, given) {
  has <- table$counts > 0
  codes <- table$codes[has, , drop = FALSE]
  counts <- table$counts[has]
  sizes <- lengths(table$levels[c(a, b)])
  key <- rep(0, nrow(codes))
  for (name in given) key <- match(key * length(table$levels[[name]]) + codes[, name], unique(key * length(table$levels[[name]]) + codes[, name]))
  stratum <- match(key, unique(key))
  several <- function(name) {
    size <- length(table$levels[[name]])
    pairs <- unique((stratum - 1) * size + codes[, name] - 1)
    tabulate(pairs %/% size + 1, max(stratum, 1)) > 1
  }
  moving <- several(a) & several(b)
  kept <- moving[stratum]
  list(codes = codes[kept, c(a, b), drop = FALSE], counts = counts[kept], stratum = match(stratum[kept], which(moving)), strata = sum(moving), sizes = sizes,
       records = sum(counts), levels = c(length(unique(codes[, a])), length(unique(codes[, b]))))
}

# Sums of counts by some codes, as an array of all of them.
sums_by <- function(counts, codes, sizes) {
  at <- rep(0, length(counts))
  for (k in rev(seq_along(sizes))) at <- at * sizes[k] + codes[[k]] - 1
  values <- numeric(prod(sizes))
  sums <- rowsum(counts, at, reorder = FALSE)
  values[unique(at) + 1] <- sums
  array(values, sizes)
}

# The cells of all strata, with the sums of their rows and columns; those of levels that a stratum hasn't aren't there.
cells_of_strata <- function(strata) {
  codes <- list(strata$codes[, 1], strata$codes[, 2], strata$stratum)
  number <- strata$strata
  rows <- sums_by(strata$counts, codes[c(1, 3)], c(strata$sizes[[1]], number))
  columns <- sums_by(strata$counts, codes[c(2, 3)], c(strata$sizes[[2]], number))
  row <- which(rows > 0, arr.ind = TRUE)
  column <- which(columns > 0, arr.ind = TRUE)
  by_row <- split(row[, 1], factor(row[, 2], seq_len(number)))
  by_column <- split(column[, 1], factor(column[, 2], seq_len(number)))
  tall <- lengths(by_row)
  wide <- lengths(by_column)
  stratum <- rep(seq_len(number), tall * wide)
  first <- unlist(mapply(function(rows, times) rep(rows, times), by_row, wide, SIMPLIFY = FALSE), use.names = FALSE)
  second <- unlist(mapply(function(columns, each) rep(columns, each = each), by_column, tall, SIMPLIFY = FALSE), use.names = FALSE)
  at <- function(a, b, s) (s - 1) * strata$sizes[[1]] * strata$sizes[[2]] + (b - 1) * strata$sizes[[1]] + a
  key <- at(codes[[1]], codes[[2]], codes[[3]])
  sums <- rowsum(strata$counts, key, reorder = FALSE)[, 1]
  found <- sums[match(at(first, second, stratum), unique(key))]
  total <- rowsum(strata$counts, codes[[3]], reorder = TRUE)[, 1]
  list(counts = replace(found, is.na(found), 0), expected = rows[cbind(first, stratum)] * columns[cbind(second, stratum)] / total[stratum],
       stratum = stratum, df = sum((tall - 1) * (wide - 1)), tall = tall)
}

# The matrices of the strata, of which tables are drawn by chance.
matrices_of <- function(cells) {
  mapply(function(counts, rows) matrix(counts, rows), split(cells$counts, cells$stratum), cells$tall, SIMPLIFY = FALSE)
}

expected_counts <- function(counts) outer(rowSums(counts), colSums(counts)) / sum(counts)

deviance_of <- function(counts, expected = expected_counts(counts)) 2 * sum(ifelse(counts > 0, counts * log(ifelse(counts > 0, counts / expected, 1)), 0))

# Whether too few records are expected in too many cells for the chi-squared distribution.
is_thin <- function(expected) any(expected < 1) || mean(expected < 5) > 0.2

# G squared over the strata, its degrees of freedom, its p-value, and Cramer's V. NA where nothing can be tested.
independence_test <- function(strata, method, permutations, tests = TRUE) {
  if (!strata$strata)
    return(list(statistic = 0, df = 0, p = NA_real_, effect = 0, method = NA_character_, largest = 0, rmsea = 0, rmsea_lower = 0, rmsea_upper = 0))
  cells <- cells_of_strata(strata)
  statistic <- deviance_of(cells$counts, cells$expected)
  df <- cells$df
  records <- strata$records
  effect <- sqrt(sum((cells$counts - cells$expected)^2 / cells$expected) / (records * (min(strata$levels) - 1)))
  by_chance <- method == "permutation" || method == "auto" && is_thin(cells$expected)
  p <- if (!tests) NA_real_ else if (by_chance) permutation_p(matrices_of(cells), statistic, permutations) else stats::pchisq(statistic, df, lower.tail = FALSE)
  rmsea <- function(shift) sqrt(max(shift, 0) / (df * (records - 1)))
  list(statistic = statistic, df = df, p = p, effect = effect, method = if (!tests) NA_character_ else if (by_chance) "permutation" else "chi-squared",
       largest = max(abs(cells$counts - cells$expected)) / records, rmsea = rmsea(statistic - df),
       rmsea_lower = rmsea(shift_at(statistic, df, 0.975)), rmsea_upper = rmsea(shift_at(statistic, df, 0.025)))
}

# How likely a noncentral chi-squared statistic is smaller; for large ones by Sankaran's approximation, which needs no series.
noncentral_below <- function(statistic, df, shift) {
  if (statistic <= 500) return(stats::pchisq(statistic, df, shift))
  mean <- df + shift
  half <- df + 2 * shift
  power <- 1 - 2 * mean * (df + 3 * shift) / (3 * half^2)
  spread <- half / mean^2
  bend <- (power - 1) * (1 - 3 * power)
  middle <- 1 + power * spread * (power - 1 - 0.5 * (2 - power) * bend * spread)
  stats::pnorm(((statistic / mean)^power - middle) / (power * sqrt(2 * spread) * (1 + 0.5 * bend * spread)))
}

# How far the statistic's distribution is shifted where this part of it lies below the statistic; 0 where none is so low.
shift_at <- function(statistic, df, part) {
  if (statistic <= 0 || noncentral_below(statistic, df, 0) <= part) return(0)
  high <- 1
  while (noncentral_below(statistic, df, high) > part) high <- 2 * high
  stats::uniroot(function(shift) noncentral_below(statistic, df, shift) - part, c(0, high), tol = 1e-9 * high)$root
}

# The size of each difference, the RMSEA with its interval. Pairs without a test are left out.
plot.causal_tests <- function(x, ...) {
  known <- shown_tests(x)
  rows <- rev(seq_len(nrow(known)))
  label <- paste0(known$a, " from ", known$b, " given ", known$given)
  old <- graphics::par(mai = c(0.8, max(0.4, graphics::strwidth(label, "inches", cex = 0.8)) + 0.3, 0.4, 0.2))
  on.exit(graphics::par(old))
  graphics::plot.new()
  graphics::plot.window(c(0, max(known$rmsea_high, 0.01)), c(0.5, max(length(rows), 1) + 0.5))
  graphics::abline(v = 0, lty = 2, col = "#888888")
  graphics::segments(known$rmsea_low, rows, known$rmsea_high, rows)
  graphics::points(known$rmsea, rows, pch = 19)
  graphics::axis(1)
  if (length(rows)) graphics::axis(2, at = rows, labels = label, las = 1, tick = FALSE, cex.axis = 0.8)
  graphics::title(xlab = "RMSEA, with its 95% interval", ...)
  invisible(known)
}

shown_tests <- function(x) as.data.frame(x)[!is.na(x[["p_value"]]), , drop = FALSE]

# How often G squared is as large by chance: the part of tables that are drawn with the same sums, the observed one among them. Only
# the sum of n log n over the cells moves.
permutation_p <- function(strata, statistic, permutations) {
  most <- max(vapply(strata, function(counts) max(pmin(max(rowSums(counts)), max(colSums(counts)))), 0))
  n_log_n <- if (most <= 1e6) c(0, seq_len(most) * log(seq_len(most)))
  cell_sum <- function(cells) {
    cells <- if (is.null(n_log_n)) ifelse(cells > 0, cells * log(pmax(cells, 1)), 0) else n_log_n[cells + 1]
    colSums(matrix(cells, ncol = permutations))
  }
  drawn <- numeric(permutations)
  for (counts in strata) {
    sums <- c(rowSums(counts), colSums(counts))
    fixed <- sum(sums * log(sums)) - sum(counts) * log(sum(counts))
    drawn <- drawn + 2 * (cell_sum(unlist(stats::r2dtable(permutations, rowSums(counts), colSums(counts)))) - fixed)
  }
  (1 + sum(drawn >= statistic - 1e-9 * max(statistic, 1))) / (1 + permutations)
}

print.causal_tests <- function(x, digits = 3, ...) {
  if (!nrow(x)) cat("none\n")
  print_with_notes(x, as.data.frame(x)[setdiff(names(x), "note")], digits = digits, ...)
}
