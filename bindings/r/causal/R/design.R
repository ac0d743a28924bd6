# Weights, clusters and strata of a survey: columns of data that aren't variables of a formula. The library counts whole numbers, so that
# weights are made such; resamples draw whole clusters within strata.

design_of <- function(weights, clusters, strata) {
  design <- list(weights = weights, clusters = clusters, strata = strata)
  design <- design[!vapply(design, is.null, NA)]
  for (name in names(design)) {
    if (!is.character(design[[name]]) || length(design[[name]]) != 1 || is.na(design[[name]])) refuse("`", name, "` is the name of one column")
  }
  if (length(design)) design
}

check_design <- function(design, data, used, count, is_remote) {
  if (is.null(design)) return(invisible())
  if (is_remote) refuse("weights, clusters and strata need the records in R: `data` is a table elsewhere")
  if (!is.null(count))
    refuse("`count` is a frequency, and stands for as many records; weights, clusters and strata are of single records: give one or the other")
  check_columns(names(data), unlist(design))
  if (length(intersect(design$weights, used))) refuse("the column ", design$weights, " can't hold the weights: it is a variable that the answer needs")
}

# The columns of the design by what they are.
design_columns <- function(design, data) {
  columns <- lapply(design, function(name) data[[name]])
  bad <- if (!is.null(columns$weights)) !is.numeric(columns$weights) || any(columns$weights < 0 | is.infinite(columns$weights), na.rm = TRUE)
  if (isTRUE(bad)) refuse("a weight is a number from 0")
  columns
}

# Weights times a power of 2, as whole numbers whose sum is about 10^12: their parts are kept to some 12 digits.
whole_weights <- function(weights) {
  total <- sum(weights)
  if (!isTRUE(total > 0)) refuse("the weights sum to 0")
  round(weights * 2^floor(log2(1e12 / total)))
}

# Some resamples of a design, as columns of counts: in each stratum one cluster fewer than it has is drawn, with replacement, and the
# weights are raised by as much (Rao and Wu, 1988). Where there are no clusters a record is one.
design_resamples <- function(survey, rows, resamples) {
  units <- design_units(survey)
  draws <- matrix(0, length(units$stratum), resamples)
  for (here in split(seq_along(units$stratum), units$stratum)) {
    size <- length(here)
    draws[here, ] <- stats::rmultinom(resamples, size - 1, rep(1, size)) * size / (size - 1)
  }
  weights <- if (is.null(survey$weights)) rep(1, length(survey$row)) else survey$weights
  values <- matrix(0, rows, resamples)
  sums <- rowsum(draws[units$of, , drop = FALSE] * weights, survey$row, reorder = TRUE)
  values[as.integer(rownames(sums)), ] <- sums
  values
}

# The clusters: which one each record is of, and the stratum of each. A cluster is named within its stratum.
design_units <- function(survey) {
  number <- length(survey$row)
  stratum <- if (is.null(survey$strata)) rep(1L, number) else match(survey$strata, unique(survey$strata))
  cluster <- if (is.null(survey$clusters)) seq_len(number) else match(survey$clusters, unique(survey$clusters))
  key <- paste(stratum, cluster)
  of <- match(key, unique(key))
  strata <- stratum[!duplicated(key)]
  lone <- which(tabulate(strata, max(stratum)) == 1)
  if (length(lone)) refuse("the stratum ", if (!is.null(survey$strata)) unique(survey$strata)[lone[1]],
                           " has one cluster, so that nothing tells how far others would be; join it with another")
  list(of = of, stratum = strata)
}
