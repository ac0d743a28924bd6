# Estimates by models as a table: measures with their intervals, the fits, and what speaks against them.

estimate_frame <- function(asked, table, arms, targets, estimator, method, level, interval, resamples, seed, progress) {
  weights <- table_weights(table)
  point <- estimator$answer(weights)
  kind <- interval_kind(interval, resamples, estimator$has_moves(point))
  resamples <- if (kind != "percentile") 0 else if (is.null(resamples)) 200 else resamples
  drawn <- if (kind == "percentile") model_draws(estimator, table, resamples, seed, progress)
  shares <- if (kind == "influence") estimator$moves(weights, point)
  values <- point$values
  wanted <- if (targets$mean) mean_measures else measures
  cells <- length(values$treated)
  rows <- lapply(seq_len(cells), function(k) lapply(names(wanted), function(name) {
    here <- function(parts) lapply(parts, function(part) part[, k])
    measure_row(wanted[[name]], name, vapply(values, `[[`, 0, k), here(drawn), here(shares), table, level)
  }))
  rows <- do.call(rbind, unlist(rows, recursive = FALSE))
  lost <- if (is.null(drawn)) 0 else sum(is.na(rowSums(drawn$treated + drawn$control)))
  columns <- c(estimate_cells(asked, table, arms, targets, estimator, length(wanted)),
               list(measure = rep(names(wanted), cells), estimate = rows[, 1], std_error = rows[, 2], conf_low = rows[, 3], conf_high = rows[, 4]))
  fits <- fit_frame(estimator$models, point$fits)
  columns$note <- estimate_notes(fits, lost, resamples, point, table, rows)
  columns <- lapply(columns, rep_len, length(columns$measure))
  structure(frame_of(columns), class = c("causal_estimate", "causal_rows", "data.frame"), models = fits, method = method, set = asked$set,
            formula = asked$formula, among = if (!is.null(asked$among)) labels_at(table, stats::setNames(codes_among(asked, table), asked$x)),
            outcome = asked$y, mean = targets$mean, level = level, resamples = resamples, lost = lost, seed = if (resamples > 0) seed, exposures = asked$x,
            interval = kind, diagnostics = weight_diagnostics(point, estimator, table), balance = balance_of(asked, table, estimator, point),
            dropped = table$dropped, drawn = estimator$drawn, records = sum(table$records),
            pinned = levels_at(table, stats::setNames(rep(1L, length(asked$formula$free)), asked$formula$free)), design = !is.null(table$survey))
}

mean_measures <- list(
  mean_treated = function(treated, control) treated,
  mean_control = function(treated, control) control,
  difference = function(treated, control) treated - control,
  ratio = function(treated, control) ifelse(control > 0, treated / control, NA)
)

# By influence functions where they are known and no resamples are asked for; else by resamples, unless there are to be none.
interval_kind <- function(interval, resamples, has_moves) {
  if (identical(interval, "influence") && !has_moves)
    refuse("influence functions are known of the package's own regressions with few coefficients; interval = \"percentile\" draws the records anew")
  if (!is.null(interval)) return(if (interval == "percentile" && identical(as.numeric(resamples), 0)) "none" else interval)
  if (has_moves && (is.null(resamples) || resamples == 0)) "influence" else if (identical(as.numeric(resamples), 0)) "none" else "percentile"
}

# The levels that each row of the table is of.
estimate_cells <- function(asked, table, arms, targets, estimator, each) {
  conditions <- lapply(stats::setNames(colnames(estimator$conditions), colnames(estimator$conditions)), function(name) {
    rep(rep(level_of(table, name, estimator$conditions[, name]), each = each), max(length(targets$codes), 1))
  })
  outcome <- if (!targets$mean) stats::setNames(list(level_of(table, asked$y, rep(targets$codes, each = each * nrow(estimator$conditions)))), asked$y)
  c(conditions, outcome, list(treated = arm_text(labels_at(table, arms$treated)), control = arm_text(labels_at(table, arms$control))))
}

# The weight of each row over the data.
table_weights <- function(table) if (is.null(table$survey)) table$counts else table$counts * sum(table$records) / sum(table$counts)

# The values of the arms over resamples, a row for each; NA where a fit gives no number.
model_draws <- function(estimator, table, resamples, seed, progress, arms = c("treated", "control")) {
  tell <- progress_of(progress, resamples)
  drawn <- with_seed(seed, lapply(seq_len(resamples), function(k) {
    weights <- resampled_weights(table)
    found <- tryCatch(estimator$answer(weights)$values, error = function(it) NULL)
    tell(k, resamples)
    found
  }))
  size <- max(vapply(drawn, function(one) length(one$treated), 0L))
  part <- function(name) do.call(rbind, lapply(drawn, function(one) if (is.null(one)) rep(NA_real_, size) else replace(one[[name]], !is.finite(one[[name]]), NA)))
  sapply(arms, part, simplify = FALSE)
}

# The weights of the rows over one resample, of each study by itself.
resampled_weights <- function(table) {
  if (!is.null(table$survey)) return(design_resamples(table$survey, length(table$counts), 1)[, 1])
  weights <- table$counts
  of <- if (is.null(table$source_of)) rep(1L, length(weights)) else table$source_of
  for (rows in split(seq_along(weights), of)) weights[rows] <- stats::rmultinom(1, sum(table$counts[rows]), table$counts[rows])[, 1]
  weights
}

# An estimate, its standard error and the ends of its interval: by resamples, or by the influence function, for risks on their logit and
# for ratios on their logarithm.
measure_row <- function(measure, name, values, draws, shares, table, level) {
  value <- measure(values[["treated"]], values[["control"]])
  if (length(draws)) {
    have <- measure(draws$treated, draws$control)
    have <- have[is.finite(have)]
    return(c(value, stats::sd(have), percentile_interval(have, level)))
  }
  if (!length(shares)) return(c(value, NA, NA, NA))
  scale <- switch(name, risk_treated = , risk_control = "risk", ratio = , odds_ratio = "ratio", "plain")
  moved_row(function(values) measure(values[["treated"]], values[["control"]]), scale, values, shares, table, level)
}

# A measure, its standard error and the ends of its interval by how the value of each arm moves: for risks on their logit, for ratios on
# their logarithm.
moved_row <- function(measure, scale, values, shares, table, level) {
  value <- measure(values)
  scale <- if (scale == "risk" && isTRUE(value > 0 && value < 1)) list(there = stats::qlogis, back = stats::plogis, slope = value * (1 - value))
           else if (scale == "ratio") list(there = log, back = exp, slope = value)
           else list(there = identity, back = identity, slope = 1)
  if (!isTRUE(is.finite(value) && is.finite(scale$there(value)))) return(c(value, NA, NA, NA))
  slope <- function(arm) {
    step <- 1e-5 * max(abs(values[[arm]]), 1e-3)
    (measure(replace(values, arm, values[[arm]] + step)) - measure(replace(values, arm, values[[arm]] - step))) / (2 * step)
  }
  error <- sqrt(design_variance(Reduce(`+`, lapply(names(values), function(arm) slope(arm) * shares[[arm]])), table))
  c(value, error, scale$back(scale$there(value) + stats::qnorm(c(1 - level, 1 + level) / 2) * error / scale$slope))
}

# The variance of a weighted mean of numbers, one for each row of the table: between the clusters of each stratum.
design_variance <- function(share, table) {
  if (is.null(table$survey)) {
    # (of several studies each by itself)
    of <- if (is.null(table$source_of)) rep(1L, length(share)) else table$source_of
    sums <- rowsum(cbind(table$counts * (share / sum(table$counts))^2, table$counts), of)
    return(sum(sums[, 1] * sums[, 2] / (sums[, 2] - 1)))
  }
  units <- design_units(table$survey)
  weights <- if (is.null(table$survey$weights)) rep(1, length(table$survey$row)) else table$survey$weights
  sums <- rowsum(weights * share[table$survey$row] / sum(weights), units$of, reorder = TRUE)[, 1]
  sum(vapply(split(sums, units$stratum), function(part) length(part) / (length(part) - 1) * sum((part - mean(part))^2), 0))
}

estimate_notes <- function(fits, lost, resamples, point, table, rows) {
  bad <- nzchar(fits$note)
  told <- c(paste0(fits$model[bad], ": ", fits$note[bad], recycle0 = TRUE), if (lost > 0) paste(lost, "of", resamples, "resamples had no estimate"),
            small_chances(point, table), if (any(is.nan(rows[, 2]))) "no interval: the fit doesn't tell how far it could be")
  if (length(told)) doubt(paste(told, collapse = "; "))
  paste(told, collapse = "; ")
}

# Chances of an arm so small that few records stand for many.
small_chances <- function(point, table) {
  unlist(lapply(names(point$parts), function(arm) {
    chance <- point$parts[[arm]]$chance
    few <- if (!is.null(chance)) sum(table$records[chance < 0.01]) else 0
    if (few > 0) paste(few, "of", sum(table$records), "records have a chance below 0.01 of being", arm)
  }))
}

# The effective sample size of each arm's weights, and the largest of them.
weight_diagnostics <- function(point, estimator, table) {
  if (is.null(point$parts) || is.null(point$parts[[1]]$inverse)) return(NULL)
  weights <- table_weights(table)
  of <- function(arm) {
    here <- estimator$is_in[[arm]] & weights > 0
    records <- table$records[here]
    each <- point$parts[[arm]]$inverse[here] * weights[here] / records
    c(sum(records), sum(records * each)^2 / sum(records * each^2), range(each), min(point$parts[[arm]]$chance))
  }
  found <- vapply(names(point$parts), of, numeric(5))
  frame_of(list(arm = colnames(found), records = found[1, ], effective = found[2, ], smallest_weight = found[3, ], largest_weight = found[4, ],
                smallest_chance = found[5, ]))
}

# How far the arms are apart in each member of the set, in standard deviations, before and after weighting; of a factor, each level.
balance_of <- function(asked, table, estimator, point) {
  if (is.null(point$parts) || is.null(point$parts[[1]]$inverse) || !length(asked$set)) return(NULL)
  frame <- model_rows(table, table$codes[, asked$set, drop = FALSE])
  columns <- do.call(cbind, lapply(names(frame), function(name) {
    if (is.numeric(frame[[name]])) return(matrix(frame[[name]], dimnames = list(NULL, name)))
    found <- outer(as.integer(frame[[name]]), seq_along(levels(frame[[name]])), "==") + 0
    colnames(found) <- paste0(name, "=", levels(frame[[name]]))
    if (ncol(found) == 2) found[, 2, drop = FALSE] else found
  }))
  weights <- table_weights(table)
  spread <- sqrt(apply(columns, 2, function(column) stats::weighted.mean(column^2, weights) - stats::weighted.mean(column, weights)^2))
  apart <- function(inverse) {
    means <- lapply(names(estimator$is_in), function(arm) {
      w <- weights * estimator$is_in[[arm]] * (if (inverse) point$parts[[arm]]$inverse else 1)
      colSums(w * columns) / sum(w)
    })
    (means[[1]] - means[[2]]) / spread
  }
  frame_of(list(variable = colnames(columns), before = unname(apart(FALSE)), after = unname(apart(TRUE))))
}

# What an estimate rests on.
estimate_head <- function(x) {
  set <- attr(x, "set")
  over <- if (is.null(set)) paste("the formula", attr(x, "formula")$expression)
          else paste0("adjustment for {", paste(set, collapse = ","), "}, which the diagram admits")
  among <- attr(x, "among")
  c(paste0("computed: by these models, over ", over), paste0("  ", attr(x, "models")$kind, ": ", attr(x, "models")$model),
    if (length(among)) paste0("among those for whom ", level_text(among), " was observed"),
    if (length(attr(x, "drawn"))) paste0("summed over draws of ", paste(attr(x, "drawn"), collapse = ", ")),
    paste0("method: ", attr(x, "method"), if (attr(x, "design")) ", by the weights, clusters or strata of the design"),
    head_notes(x))
}

estimate_foot <- function(x) {
  level <- paste0(100 * attr(x, "level"), "%")
  c(switch(attr(x, "interval"), percentile = paste0(level, " percentile intervals of ", attr(x, "resamples"), " resamples; seed ", attr(x, "seed")),
           none = "no intervals: resamples = 0", influence = paste(level, "intervals by influence functions")), row_notes(x))
}

print.causal_estimate <- function(x, digits = 4, ...) {
  if (is.null(attr(x, "models")) || !all(c("treated", "measure", "estimate") %in% names(x))) return(print.data.frame(x, ...))
  writeLines(estimate_head(x))
  cat("treated: ", named_arm(x, "treated")[1], "; control: ", named_arm(x, "control")[1], "\n", sep = "")
  levels <- names(x)[seq_len(match("treated", names(x)) - 1)]
  shown <- if (length(levels)) as.data.frame(x) else cbind(` ` = attr(x, "outcome"), as.data.frame(x))
  print.data.frame(shown_measures(shown, if (length(levels)) levels else " ", digits), ...)
  writeLines(estimate_foot(x))
  invisible(x)
}

summary.causal_estimate <- function(object, ...) structure(list(answer = object), class = "summary.causal_estimate")

print.summary.causal_estimate <- function(x, ...) {
  print(x$answer)
  cat("\nmodels\n")
  print(attr(x$answer, "models"))
  if (!is.null(attr(x$answer, "diagnostics"))) {
    cat("\nweights\n")
    print(attr(x$answer, "diagnostics"))
  }
  if (!is.null(attr(x$answer, "balance"))) {
    cat("\nbalance: differences of the arms in standard deviations\n")
    print(attr(x$answer, "balance"))
  }
  invisible(x)
}

as.data.frame.causal_estimate <- function(x, ...) as.data.frame.causal_implications(x)

# The balance of the set's members before and after weighting.
plot.causal_estimate <- function(x, ...) {
  found <- attr(x, "balance")
  if (is.null(found)) refuse("only an estimate with weights (method \"ipw\" or \"aipw\") has a balance to draw")
  rows <- rev(seq_len(nrow(found)))
  old <- graphics::par(mai = c(0.8, max(0.4, graphics::strwidth(found$variable, "inches", cex = 0.8)) + 0.3, 0.4, 0.2))
  on.exit(graphics::par(old))
  graphics::plot(found$before, rows, xlim = range(c(found$before, found$after, -0.1, 0.1)), yaxt = "n", ylab = "", pch = 1,
                 xlab = "difference of the arms in standard deviations", ...)
  graphics::points(found$after, rows, pch = 19)
  graphics::abline(v = c(-0.1, 0, 0.1), lty = c(3, 2, 3), col = "#888888")
  graphics::axis(2, at = rows, labels = found$variable, las = 1, tick = FALSE, cex.axis = 0.8)
  graphics::legend("topright", legend = c("before", "after"), pch = c(1, 19), bty = "n", cex = 0.8)
  invisible(found)
}
