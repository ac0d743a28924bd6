# Estimates by a set to adjust for: the mean over the records of what the outcome's model says of each in both arms (standardisation); the
# mean of outcomes weighted by the inverse chance of the arm (Hajek's form); or the doubly robust one of both (Robins, Rotnitzky and Zhao,
# 1994).

set_estimator <- function(asked, table, arms, targets, options, method) {
  codes <- table$codes
  given <- c(asked$x, asked$set)
  modelled <- function(name, given, mean = FALSE) new_model(name, given, table, options$models, options$smoothing, mean, options$factors)
  outcome_model <- if (method != "ipw") modelled(asked$y, given, targets$mean)
  arm_models <- if (method != "formula") lapply(seq_along(asked$x), function(k) modelled(asked$x[k], c(asked$set, asked$x[seq_len(k - 1)])))
  models <- c(if (!is.null(outcome_model)) list(outcome_model), arm_models)
  check_modelled(options$models, vapply(models, `[[`, "", "name"))
  set_to <- function(arm) { for (name in names(arm)) codes[, name] <- arm[[name]]; codes }
  rows_of_model <- function(model, codes) if (isTRUE(model$by_codes)) model$rows(codes) else model$rows(model_rows(table, codes))
  outcome_rows <- if (!is.null(outcome_model)) lapply(arms, function(arm) rows_of_model(outcome_model, set_to(arm)))
  arm_rows <- lapply(arms, function(arm) lapply(arm_models, rows_of_model, set_to(arm)))
  is_in <- lapply(arms, function(arm) Reduce(`&`, lapply(names(arm), function(name) codes[, name] == arm[[name]])))
  response <- if (targets$mean) matrix(as.numeric(table$frame[[asked$y]])) else outer(codes[, asked$y], targets$codes, "==") + 0
  behind <- length(models) - length(arm_models)
  answer <- function(weights) {
    fits <- lapply(models, function(model) model$fit(weights))
    parts <- lapply(stats::setNames(names(arms), names(arms)), function(name) {
      fitted <- if (!is.null(outcome_model)) fits[[1]]$predict(outcome_rows[[name]])
      if (!is.null(fitted) && !targets$mean) fitted <- fitted[, targets$codes, drop = FALSE]
      chances <- lapply(seq_along(arm_models), function(k) fits[[behind + k]]$predict(arm_rows[[name]][[k]])[, arms[[name]][[k]]])
      arm_part(method, weights, is_in[[name]], response, fitted, chances)
    })
    list(values = lapply(parts, `[[`, "value"), fits = fits, parts = parts)
  }
  # how the value of each arm moves with the weight of each row, times the sum of the weights: also by way of the models
  moves <- function(weights, point) {
    of_models <- lapply(point$fits, function(fit) fit$moves())
    lapply(stats::setNames(names(arms), names(arms)), function(name) {
      part <- point$parts[[name]]
      columns <- vapply(seq_along(part$value), function(t) {
        by_models <- lapply(seq_along(models), function(k) {
          if (k <= behind) return(point$fits[[k]]$slope(outcome_rows[[name]], weights * part$of_outcome, if (targets$mean) 1 else targets$codes[t]))
          weight <- weights * part$of_chance[, t] / part$chances[[k - behind]]
          point$fits[[k]]$slope(arm_rows[[name]][[k - behind]], weight, arms[[name]][[k - behind]])
        })
        moved <- Reduce(`+`, Map(function(moves, slope) drop(moves %*% slope), of_models, by_models))
        sum(weights) * (part$above[, t] - part$value[t] * part$below + moved) / sum(weights * part$below)
      }, numeric(length(weights)))
      matrix(columns, length(weights))
    })
  }
  has_moves <- function(point) all(vapply(point$fits, function(fit) is.function(fit$moves), NA))
  list(answer = answer, moves = moves, has_moves = has_moves, models = models, conditions = matrix(0L, 1, 0), is_in = is_in)
}

# The value in one arm, for each target: a ratio of weighted sums, of `above` and `below` for each row; how these sums move with what the
# outcome's model and the chance of the arm say of the row; and what each row weighs by its chance.
arm_part <- function(method, weights, is_in, response, fitted, chances) {
  chance <- if (length(chances)) Reduce(`*`, chances)
  inverse <- if (!is.null(chance)) ifelse(is_in, 1 / chance, 0)
  ones <- rep(1, length(weights))
  parts <- switch(method,
    formula = list(above = fitted, below = ones, of_outcome = ones),
    ipw = list(above = inverse * response, below = inverse),
    aipw = list(above = fitted + inverse * (response - fitted), below = ones, of_outcome = 1 - inverse))
  value <- colSums(weights * parts$above) / sum(weights * parts$below)
  off <- switch(method, formula = NULL, ipw = sweep(response, 2, value), aipw = response - fitted)
  c(parts, list(value = value, inverse = inverse, chance = chance, chances = chances, of_chance = if (!is.null(off)) -inverse * off))
}
