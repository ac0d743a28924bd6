# Natural effects by models: the terms of a natural effect's formula by models, as `estimate` has those of an effect. The formula is proved;
# all else is computed.

mediate_by_models <- function(asked, formula, data, count, missing, treated, control, outcome, words, level, interval, resamples, seed, progress) {
  if (!is.null(interval)) check_word("interval", interval, c("influence", "percentile"))
  if (!is.numeric(words$smoothing) || length(words$smoothing) != 1 || !isTRUE(words$smoothing >= 0)) refuse("`smoothing` is a number of records from 0")
  check_whole("draws", words$draws, 1)
  asked <- c(asked, list(trees = joined_trees(formula), formula = list(free = pinned_of(formula), expression = formula$expression),
                         second = stats::setNames(formula$sets$second, formula$sets$x)))
  table <- model_table(asked, data, count, missing, NULL, NULL, NULL)
  arms <- model_arms(asked, table, treated, control)
  targets <- mediation_targets(asked, table, outcome)
  factors <- factors_of(words$factors, asked, table)
  factors <- c(factors, unname(asked$second[names(asked$second) %in% factors]))
  options <- list(models = read_models(words$model), smoothing = words$smoothing, factors = factors, draws = words$draws)
  estimator <- formula_estimator(asked, table, worlds_of(asked, arms), targets, options)
  point <- estimator$answer(table$counts)
  own <- vapply(point$values, `[[`, 0, 1)
  if (!all(is.finite(own))) refuse("no record has some condition of the formula, so that the natural effects have no value by these models; give `smoothing`, or another model", kind = "no_value")
  kind <- interval_kind(interval, resamples, estimator$has_moves(point))
  if (kind == "influence") {
    shares <- lapply(estimator$moves(table$counts, point), function(part) part[, 1])
    ends <- vapply(names(mediation_measures), function(name) world_ends(name, own, shares, targets$mean, table, level), c(0, 0))
    resamples <- lost <- 0
  } else {
    resamples <- if (kind == "none") 0 else if (is.null(resamples)) 200 else resamples
    seed <- seed_or_drawn(seed)
    drawn <- if (resamples > 0) do.call(cbind, model_draws(estimator, table, resamples, seed, progress, names(own)))
             else matrix(NA_real_, 0, length(own))
    colnames(drawn) <- names(own)
    lost <- sum(is.na(rowSums(drawn)))
    drawn[is.na(rowSums(drawn)), ] <- NA
    ends <- ends_of_worlds(drawn, level)
  }
  mediation_frame(formula, table, arms, targets, t(own), ends, level, if (kind == "influence") kind else "percentile", resamples, lost, seed,
                  fit_frame(estimator$models, point$fits), estimator$drawn)
}

# The trees of a natural effect's formula as those of any formula: the definitions of its factors, and the whole last.
joined_trees <- function(formula) {
  found <- parts <- list()
  for (factor in formula$factors) {
    trees <- lapply(factor$trees, moved_tree, length(found))
    tree <- trees[[length(trees)]]
    found <- c(found, trees[-length(trees)])
    parts <- c(parts, if (is.null(tree$product)) list(tree) else tree$product)
  }
  body <- list(product = parts)
  c(found, list(if (length(formula$summed)) list(sum = as.list(formula$summed), of = body) else body))
}

# A tree with the numbers of its definitions moved.
moved_tree <- function(tree, by) {
  if (!is.null(tree$definition)) return(list(definition = tree$definition + by))
  if (!is.null(tree$of)) tree$of <- moved_tree(tree$of, by)
  for (key in intersect(c("product", "quotient"), names(tree))) tree[[key]] <- lapply(tree[[key]], moved_tree, by)
  tree
}

# The worlds: both arms, and x as treated where it is read by its first names, and as control where by its second ones.
worlds_of <- function(asked, arms) {
  world <- function(first, second) c(first, stats::setNames(second, unname(asked$second[names(second)])))
  list(treated = world(arms$treated, arms$treated), control = world(arms$control, arms$control), between = world(arms$treated, arms$control))
}

# The ends of a measure's interval, by how the value in each world moves.
world_ends <- function(name, values, shares, is_mean, table, level) {
  scale <- if (!is_mean && name %in% names(values)) "risk" else "plain"
  moved_row(function(values) mediation_measures[[name]](t(values)), scale, values, shares, table, level)[3:4]
}

# The models, in words.
model_notes <- function(fits, drawn) {
  c(if (!is.null(fits)) "by these models of its terms", paste0("  ", fits$kind, ": ", fits$model, recycle0 = TRUE),
    if (length(drawn)) paste0("summed over draws of ", paste(drawn, collapse = ", ")))
}
