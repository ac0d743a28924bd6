# Intervals of numbers that are computed of values over resamples, and what runs beside the computation: its seed and its progress.

# Some numbers that are computed of the values of all cells, given as rows: over the data, with their intervals.
measured <- function(drawn, measure) {
  value <- measure(matrix(drawn$values, 1))[1, ]
  draws <- measure(drawn$drawn)
  left_out <- if (!is.null(drawn$left_out)) measure(drawn$left_out)
  ends <- vapply(seq_along(value), function(k) {
    have <- draws[!is.na(draws[, k]), k]
    if (drawn$kind == "percentile") percentile_interval(have, drawn$level)
    else corrected_interval(have, value[k], left_out[, k], attr(drawn$left_out, "records"), drawn$level)
  }, c(0, 0))
  list(value = value, lower = ends[1, ], upper = ends[2, ], without = colSums(is.na(draws)))
}

percentile_interval <- function(draws, level) {
  if (length(draws) > 1) stats::quantile(draws, c(1 - level, 1 + level) / 2, names = FALSE) else c(NA_real_, NA_real_)
}

# The intervals for ranges, each a column of the lower and one of the upper ends over resamples: from the lower percentile of the lower ends
# to the upper one of the upper ends.
ends_of_ranges <- function(least, most, level) {
  known <- !is.na(least[, 1])
  list(conf_low = unname(apply(least[known, , drop = FALSE], 2, function(ends) percentile_interval(ends, level)[1])),
       conf_high = unname(apply(most[known, , drop = FALSE], 2, function(ends) percentile_interval(ends, level)[2])))
}

# The interval that is corrected for bias and accelerated (BCa); NA where it can't be computed.
corrected_interval <- function(draws, value, left_out, records, level) {
  below <- if (is.na(value)) NA else mean(draws < value) + mean(draws == value) / 2
  if (length(draws) < 2 || is.na(below) || below <= 0 || below >= 1) return(c(NA_real_, NA_real_))
  bias <- stats::qnorm(below)
  rate <- acceleration(left_out, records)
  shifted <- bias + stats::qnorm(c(1 - level, 1 + level) / 2)
  parts <- ifelse(rate * shifted < 1, stats::pnorm(bias + shifted / (1 - rate * shifted)), as.numeric(shifted > 0))
  stats::quantile(draws, parts, names = FALSE)
}

# How fast the spread changes with the value, by what one record makes of it. One without which there is no value is left out.
acceleration <- function(left_out, records) {
  known <- !is.na(left_out)
  if (!any(known)) return(0)
  apart <- stats::weighted.mean(left_out[known], records[known]) - left_out[known]
  squares <- sum(records[known] * apart^2)
  if (squares > 0) sum(records[known] * apart^3) / (6 * squares^1.5) else 0
}

# A seed that is told with the answer: the one that is given, or one that the session's random numbers draw.
seed_or_drawn <- function(seed) {
  if (is.null(seed)) return(sample.int(.Machine$integer.max, 1))
  if (!is.numeric(seed) || length(seed) != 1 || !is.finite(seed)) refuse("`seed` is one number, or NULL for one that is drawn")
  seed
}

# A seed for this computation alone: the stream of random numbers of the session goes on as before.
with_seed <- function(seed, value) {
  if (!exists(".Random.seed", globalenv(), inherits = FALSE)) stats::runif(1)
  before <- get(".Random.seed", globalenv())
  on.exit(assign(".Random.seed", before, envir = globalenv()))
  set.seed(seed)
  value
}

# What gives values over columns of counts, and tells after each call how many columns there were, and of how many. Where nobody is to
# be told, a session of a person is, from a second on.
told_by <- function(values, progress, of) {
  done <- 0
  tell <- progress_of(progress, of)
  function(counts) {
    found <- values(counts)
    done <<- done + ncol(as.matrix(counts))
    tell(done, of)
    found
  }
}

progress_of <- function(progress, of) {
  if (is.function(progress)) return(progress)
  if (!is.null(progress) && !isTRUE(progress) && !isFALSE(progress))
    refuse("`progress` is a function of how much is done and of how much, TRUE, FALSE or NULL")
  if (!isTRUE(progress) && !(is.null(progress) && interactive())) return(function(done, of) NULL)
  began <- proc.time()[["elapsed"]]
  shown <- FALSE
  function(done, of) {
    if (!shown && proc.time()[["elapsed"]] - began < 1) return(NULL)
    shown <<- TRUE
    cat("\r", done, " of ", of, if (done >= of) "\n", sep = "", file = stderr())
  }
}
