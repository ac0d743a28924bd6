# Models of the terms of a formula: base R's logistic and linear regression, the multinomial one of nnet, and a smoothed table. A model is
# prepared once over the rows of a table, fitted with a weight for each row, and asked about rows of other levels.

model_words <- c("logistic", "multinomial", "linear", "table")

# What is asked for by `model`: a word, a formula or a model of the caller's own, for all variables or in a list by variable. A formula with a
# left side is of that variable. What has no name is for all others.
read_models <- function(model) {
  if (inherits(model, "formula") || is_own_model(model)) model <- list(model)
  if (!is.list(model) && !is.character(model)) refuse_model()
  model <- as.list(model)
  named <- if (is.null(names(model))) rep("", length(model)) else names(model)
  for (k in seq_along(model)) {
    it <- model[[k]]
    if (!inherits(it, "formula") && !is_own_model(it) && !(is.character(it) && length(it) == 1 && it %in% model_words)) refuse_model(it)
    if (inherits(it, "formula") && length(it) == 3) {
      left <- all.vars(it[[2]])
      if (length(left) != 1 || nzchar(named[k]) && named[k] != left) refuse("the left side of the model ", deparse(it)[1], " is no name of its variable")
      named[k] <- left
    }
  }
  if (anyDuplicated(named)) refuse("there are two models of ", if (nzchar(named[duplicated(named)][1])) named[duplicated(named)][1] else "all other variables")
  stats::setNames(model, named)
}

refuse_model <- function(it = NULL) {
  word <- if (is.character(it) && length(it) == 1) meant(it, model_words)
  refuse("a model is one of ", paste(model_words, collapse = ", "), ", a formula as ~ age + sex, or a list of `fit` and `predict`", word)
}

# A model of the caller's own: fit(data, response, weights) gives what predict(fitted, data) takes, which gives a matrix with a column for each
# level of the response, the chances of the second of two, or means.
is_own_model <- function(it) is.list(it) && all(c("fit", "predict") %in% names(it)) && is.function(it$fit) && is.function(it$predict)

# The model that was asked for, of one variable. Each variable that has one of its own has to be modelled.
model_for <- function(models, name) if (identical(models, list("table"))) "table" else if (name %in% names(models)) models[[name]] else if ("" %in% names(models)) models[[match("", names(models))]] else "logistic"

check_modelled <- function(models, names) {
  strange <- setdiff(names(models), c(names, ""))
  if (length(strange)) refuse("`model` has a model of ", strange[1], ", which isn't modelled here; these are ", listed(names), meant(strange[1], names), kind = "model_refusal")
}

# A model of one variable by others. `fit(weights)` gives what has `predict(rows)`: a matrix with a column for each level, or for a mean
# with one column; and what is told of the fit. Where it is known how the fit moves with the weight of a row, it has `moves` and `slope`
# (see regression_fit).
new_model <- function(name, given, table, models, smoothing = 0, mean = FALSE, factors = character()) {
  wanted <- model_for(models, name)
  frame <- table$frame
  size <- length(table$levels[[name]])
  if (is_own_model(wanted)) return(own_model(name, given, frame, size, wanted, mean))
  if (identical(wanted, "table") || !length(given)) return(table_model(name, given, frame, table$codes, table$levels, if (length(given)) smoothing else 0, mean))
  formula <- if (inherits(wanted, "formula")) stats::as.formula(call("~", wanted[[length(wanted)]]), environment(wanted)) else plain_formula(given, factors)
  check_formula(formula, name, given)
  if (!mean && size > 50)
    refuse("a model of ", name, " would have ", size, " classes, one for each of its values; cut it to a few", kind = "model_refusal")
  if (identical(wanted, "linear") && !mean) refuse("a linear model is of numbers whose mean is wanted, and not of the levels of ", name, kind = "model_refusal")
  design <- fitted_or_refused(design_matrix(formula, frame), name, given)
  several <- !mean && (size > 2 || identical(wanted, "multinomial"))
  fit <- if (several) multinomial_fit(table$codes[, name], size, design$matrix)
         else if (mean) linear_fit(as.numeric(frame[[name]]), design$matrix)
         else logistic_fit(table$codes[, name] == 2, design$matrix)
  list(kind = if (several) "multinomial" else if (mean) "linear" else "logistic", label = model_label(name, formula), name = name, given = given,
       rows = function(new) design$of(new), fit = fit)
}

model_label <- function(name, formula) paste0(printed(name), " ~ ", paste(deparse(formula[[length(formula)]], width.cutoff = 500), collapse = " "))

# All that is given, one beside the other; categories that are written as numbers as factors.
plain_formula <- function(given, factors) {
  stats::reformulate(ifelse(given %in% factors, paste0("factor(`", given, "`)"), paste0("`", given, "`")))
}

# Numbers that are categories: those that are said to be, and exposures with a few levels.
factors_of <- function(factors, asked, table) {
  strange <- setdiff(factors, table$names)
  if (length(strange)) refuse("`factors` names ", strange[1], ", which the estimate doesn't read", meant(strange[1], table$names))
  few <- asked$x[lengths(table$levels[asked$x]) %in% 3:10]
  Filter(function(name) is.numeric(table$levels[[name]]), unique(c(factors, few)))
}

own_model <- function(name, given, frame, size, wanted, mean) {
  fit <- function(weights) {
    fitted <- fitted_or_refused(wanted$fit(frame[given], if (mean) as.numeric(frame[[name]]) else frame_factor(frame[[name]]), weights), name, given)
    list(predict = function(new) as_chances(fitted_or_refused(wanted$predict(fitted, new), name, given), size, mean, nrow(new), name), notes = character(), deviance = NA,
         null_deviance = NA, parameters = NA)
  }
  list(kind = "the caller's own", label = paste0(printed(name), " by ", paste(printed(given), collapse = ", ")), name = name, given = given,
       rows = function(new) new[given], fit = fit)
}

# What a model can't take is refused by the name of its term.
fitted_or_refused <- function(call, name, given) {
  tryCatch(call, error = function(it) {
    if (inherits(it, "causal_refusal")) stop(it)
    refuse("the model of P(", name, if (length(given)) "|", paste(given, collapse = ","), ") can't be fitted: ", conditionMessage(it), kind = "model_refusal")
  })
}

frame_factor <- function(column) if (is.factor(column)) column else factor(column)

# What a model of the caller's own predicts: a column for each level, the chances of the second of two, or means.
as_chances <- function(found, size, mean, rows, name) {
  found <- if (is.null(dim(found))) matrix(as.numeric(found)) else unname(as.matrix(found))
  if (!mean && size == 2 && ncol(found) == 1) found <- cbind(1 - found, found)
  if (nrow(found) != rows || ncol(found) != (if (mean) 1 else size) || !is.numeric(found))
    refuse("the model of ", name, " predicts ", nrow(found), " rows and ", ncol(found), " columns, where ", rows, " and ", if (mean) 1 else size, " are wanted",
           kind = "model_refusal")
  found
}

# A model reads nothing but what its term is given.
check_formula <- function(formula, name, given) {
  strange <- setdiff(all.vars(formula), c(given, "."))
  if (length(strange)) refuse("the model of ", name, " reads ", strange[1], ", and its term P(", name, "|", paste(given, collapse = ","),
                              ") isn't given it", meant(strange[1], given), kind = "model_refusal")
}

# The matrix of a formula over the rows, and of the same formula over others.
design_matrix <- function(formula, frame) {
  known <- stats::model.frame(formula, frame, na.action = stats::na.pass)
  terms <- attr(known, "terms")
  levels <- stats::.getXlevels(terms, known)
  of <- function(new) stats::model.matrix(terms, stats::model.frame(terms, new, xlev = levels, na.action = stats::na.pass))
  list(matrix = stats::model.matrix(terms, known), of = of)
}

# What base R warns of in a fit, as a note.
watched <- function(call) {
  notes <- character()
  value <- withCallingHandlers(call, warning = function(it) {
    if (grepl("converge", conditionMessage(it))) notes <<- c(notes, "the fit has not converged")
    invokeRestart("muffleWarning")
  })
  list(value = value, notes = unique(notes))
}

# A regression. `moves` has a row for each row of the data: how the coefficients move with its weight. `slope(rows, weight, column)` is how
# the weighted sum of what is predicted moves with the coefficients.
regression_fit <- function(response, matrix, family, spread) {
  function(weights) {
    found <- watched(stats::glm.fit(matrix, response, weights = weights, family = family, control = list(epsilon = 1e-12, maxit = 50)))
    has <- !is.na(found$value$coefficients)
    coefficients <- replace(found$value$coefficients, !has, 0)
    sure <- family$family == "quasibinomial" && any(abs(found$value$fitted.values[weights > 0] - 0.5) > 0.5 - 1e-8)
    notes <- c(found$notes, if (sure) "perfect separation: some fitted chances are 0 or 1", if (!all(has)) "some columns of the model tell nothing that the others don't")
    known <- matrix[, has, drop = FALSE]
    score <- drop(matrix %*% coefficients)
    moves <- function() (known * (response - family$linkinv(score))) %*% inverse_of(crossprod(known, known * (weights * family$mu.eta(score))))
    slope <- function(rows, weight, column) {
      sign <- if (family$family == "quasibinomial" && column == 1) -1 else 1
      sign * drop(crossprod(rows[, has, drop = FALSE], weight * family$mu.eta(drop(rows %*% coefficients))))
    }
    list(predict = function(new) spread(family$linkinv(drop(new %*% coefficients))), notes = notes, moves = moves, slope = slope,
         deviance = found$value$deviance, null_deviance = found$value$null.deviance, parameters = found$value$rank)
  }
}

# The inverse of a matrix of information, or of what of it can be inverted.
inverse_of <- function(information) {
  scale <- sqrt(pmax(diag(information), .Machine$double.xmin))
  found <- tryCatch(solve(information / outer(scale, scale), tol = 1e-14), error = function(it) matrix(NaN, length(scale), length(scale)))
  found / outer(scale, scale)
}

# Weights needn't be whole numbers, so that the family is quasi-binomial; the coefficients are those of the binomial one.
logistic_fit <- function(response, matrix) regression_fit(as.numeric(response), matrix, stats::quasibinomial(), function(p) cbind(1 - p, p))

linear_fit <- function(response, matrix) regression_fit(response, matrix, stats::gaussian(), function(mean) matrix(mean))

multinomial_fit <- function(codes, levels, matrix) {
  if (!requireNamespace("nnet", quietly = TRUE)) refuse("a model of a variable with more than two levels needs the package nnet")
  function(weights) {
    seen <- which(tabulate(codes[weights > 0], levels) > 0)
    notes <- if (length(seen) < levels) "a level has no record here, and gets the chance 0"
    probabilities <- function(scores) {
      chances <- matrix(0, nrow(scores), levels)
      chances[, seen] <- exp(scores - apply(scores, 1, max))
      chances / rowSums(chances)
    }
    if (length(seen) == 1)
      return(list(predict = function(new) probabilities(matrix(0, nrow(new), 1)), notes = notes, deviance = NA, null_deviance = NA, parameters = 0))
    kept <- weights > 0
    # a constant column stands for itself, so that nnet adds none
    data <- list(response = factor(codes[kept], seen), matrix = matrix[kept, , drop = FALSE], w = weights[kept] * sum(kept) / sum(weights))
    found <- watched(nnet::multinom(response ~ matrix - 1, data, weights = data$w, trace = FALSE, maxit = 500, reltol = 1e-12, MaxNWts = 1e6))
    rows <- stats::coef(found$value)
    if (is.null(dim(rows))) rows <- base::matrix(rows, 1)
    if (found$value$convergence != 0) notes <- c(notes, "the fit has not converged")
    list(predict = function(new) probabilities(cbind(0, new %*% t(rows))), notes = c(notes, found$notes),
         moves = function() multinomial_moves(codes, matrix, weights, probabilities(cbind(0, matrix %*% t(rows))), seen),
         slope = function(new, weight, column) multinomial_slope(new, weight, column, probabilities(cbind(0, new %*% t(rows))), seen),
         deviance = found$value$deviance, null_deviance = NA, parameters = length(rows))
  }
}

# The same as in `regression_fit`, level by level: the first of those that are seen has no coefficients.
multinomial_moves <- function(codes, matrix, weights, chances, seen) {
  others <- seen[-1]
  score <- do.call(cbind, lapply(others, function(k) matrix * ((codes == k) - chances[, k])))
  blocks <- lapply(others, function(k) do.call(cbind, lapply(others, function(l) {
    crossprod(matrix, matrix * (weights * chances[, k] * ((k == l) - chances[, l])))
  })))
  score %*% inverse_of(do.call(rbind, blocks))
}

multinomial_slope <- function(new, weight, column, chances, seen) {
  unlist(lapply(seen[-1], function(k) drop(crossprod(new, weight * chances[, column] * ((column == k) - chances[, k])))))
}

# The part of the records, or their mean, where the given levels are the same; with `smoothing` records in addition, that have each level
# alike, in each.
table_model <- function(name, given, frame, codes, levels, smoothing, mean) {
  sizes <- lengths(levels[given])
  key_of <- function(codes) {
    at <- rep(1, nrow(codes))
    for (other in given) at <- (at - 1) * sizes[[other]] + codes[, other]
    at
  }
  rows <- key_of(codes)
  fit <- function(weights) {
    cells <- unique(rows)
    below <- rowsum(weights, rows, reorder = FALSE)[, 1]
    columns <- if (mean) matrix(as.numeric(frame[[name]])) else outer(codes[, name], seq_along(levels[[name]]), "==") + 0
    above <- rowsum(weights * columns, rows, reorder = FALSE)
    overall <- if (mean) sum(weights * columns) / sum(weights) else 1 / length(levels[[name]])
    values <- (above + smoothing * overall) / (below + smoothing)
    values[!is.finite(values)] <- NaN
    rest <- if (smoothing > 0) rep(overall, length.out = ncol(values)) else rep(NaN, ncol(values))
    # as in `regression_fit`: each cell and level is a coefficient of its own
    moves <- function() {
      do.call(cbind, lapply(seq_len(ncol(values)), function(k) outer(rows, cells, "==") * ((columns[, k] - values[match(rows, cells), k]) / (below + smoothing)[match(rows, cells)])))
    }
    slope <- function(new, weight, column) {
      block <- matrix(0, length(cells), ncol(values))
      known <- !is.na(match(new, cells))
      sums <- rowsum(weight[known], match(new[known], cells), reorder = TRUE)
      block[as.integer(rownames(sums)), column] <- sums
      as.vector(block)
    }
    is_small <- length(values) <= 200 && !(mean && smoothing > 0)
    list(moves = if (is_small) moves, slope = if (is_small) slope, predict = function(new) {
      found <- values[match(new, cells), , drop = FALSE]
      lacking <- is.na(match(new, cells))
      found[lacking, ] <- rep(rest, each = sum(lacking))
      found
    }, notes = character(), deviance = NA, null_deviance = NA, parameters = length(values))
  }
  label <- paste0(printed(name), if (length(given)) paste0(" by {", paste(given, collapse = ","), "}"))
  list(kind = if (length(given) && smoothing > 0) paste0("table, smoothed by ", smoothing) else "table", label = label, name = name, given = given,
       by_codes = TRUE, rows = function(new) key_of(as.matrix(new)), fit = fit)
}

# What is told of some fits: a row for each model.
fit_frame <- function(models, fits) {
  text <- function(part) vapply(models, function(model) model[[part]], "", USE.NAMES = FALSE)
  frame_of(list(model = text("label"), kind = text("kind"), parameters = vapply(fits, function(fit) as.numeric(fit$parameters), 0, USE.NAMES = FALSE),
                explained = vapply(fits, function(fit) as.numeric(1 - fit$deviance / fit$null_deviance), 0, USE.NAMES = FALSE),
                note = vapply(fits, function(fit) paste(fit$notes, collapse = "; "), "", USE.NAMES = FALSE)))
}
